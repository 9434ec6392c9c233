package examples;

import static examples.Recipe.repeated;
import static examples.Recipe.say;
import static examples.Recipe.settled;

import dchm.client.DchmMap;
import java.util.List;
import java.util.UUID;
import java.util.concurrent.ThreadLocalRandom;

/**
 * Sessions of users, though servers and workers are killed: Sessions PORT WORKER. A session is the text `VERSION EXPIRES`.
 * An index of each user has the names of its sessions; if there are too many, the oldest is dropped. An index of each span
 * of time has those that expire in it, so that a sweeper finds them. Each name stands in both indexes before its session is
 * there. `in`, `out` and `dropped` are printed with the names of sessions; with a third word, which is a time in seconds,
 * it sweeps once as if it were then, prints those that are `alive`, and ends.
 */
public final class Sessions {
    private static final int LIFE_SECONDS = 3600, SPAN_SECONDS = 60;
    private static final int USERS = 4;
    private final DchmMap<String> map;

    private Sessions(DchmMap<String> map) {
        this.map = map;
    }

    private Index ofUser(String user) {
        return new Index(map, "sessions:" + user, 4, 16);
    }

    private Index ofSpan(long span) {
        return new Index(map, "expiring:" + span, 64, 60);
    }

    private Index spans() {
        return new Index(map, "expiring", 8, 200);
    }

    /** The name of a new session. */
    String logIn(String user) throws InterruptedException {
        while (true) {
            String session = user + ":" + UUID.randomUUID();
            long expires = (long) Recipe.now() + LIFE_SECONDS;
            expect(session, expires);
            Index index = ofUser(user);
            for (String oldest = index.add(session); oldest != null; oldest = index.add(session)) {
                end(user, oldest);
                say("dropped", oldest);
            }
            settled(map, "session:" + session, words -> words.isEmpty() ? List.of(Long.toString(expires)) : null);
            if (index.names().contains(session)) {
                return session;
            }
            // The user logged out meanwhile.
            end(user, session);
        }
    }

    /** Notes the session in the first span behind its end that has room; it is swept a little later then. */
    private void expect(String session, long expires) throws InterruptedException {
        long span = expires / SPAN_SECONDS + 1;
        spans().add(Long.toString(span));
        while (ofSpan(span).add(session) != null) {
            span++;
            spans().add(Long.toString(span));
        }
    }

    boolean isAlive(String session, double now) throws InterruptedException {
        List<String> words = settled(map, "session:" + session, old -> null);
        return !words.isEmpty() && Long.parseLong(words.get(0)) > now;
    }

    /** Prolongs a session that is alive: it is noted in its later span before. */
    void see(String session) throws InterruptedException {
        long expires = (long) Recipe.now() + LIFE_SECONDS;
        expect(session, expires);
        settled(map, "session:" + session, words -> !words.isEmpty() && Long.parseLong(words.get(0)) < expires
            ? List.of(Long.toString(expires)) : null);
    }

    /** Ends a session and drops its name, also if it is made just now; one that is cut short leaves the name. */
    private void end(String user, String session) throws InterruptedException {
        repeated(() -> map.remove("session:" + session));
        ofUser(user).drop(session);
        repeated(() -> map.remove("session:" + session));
    }

    /** Ends all sessions of the user; returns their names. */
    List<String> logOut(String user) throws InterruptedException {
        List<String> names = ofUser(user).names();
        for (String name : names) {
            end(user, name);
        }
        return names;
    }

    /** Ends the sessions whose time is over. Several may sweep, and one that dies is followed by another. */
    void sweep(double now) throws InterruptedException {
        for (String span : spans().names()) {
            if ((Long.parseLong(span) + 1) * SPAN_SECONDS <= now) {
                sweep(span, now);
            }
        }
    }

    private void sweep(String span, double now) throws InterruptedException {
        Index index = ofSpan(Long.parseLong(span));
        for (String session : index.names()) {
            if (!isAlive(session, now)) {
                end(session.substring(0, session.indexOf(':')), session);
            }
        }
        index.remove();
        spans().drop(span);
    }

    private void work() throws InterruptedException {
        String user = "user" + ThreadLocalRandom.current().nextInt(USERS);
        int kind = ThreadLocalRandom.current().nextInt(20);
        if (kind == 0) {
            sweep(Recipe.now());
        } else if (kind == 1) {
            for (String session : logOut(user)) {
                say("out", session);
            }
        } else {
            String session = logIn(user);
            see(session);
            say("in", session);
        }
    }

    private void sweepOnce(double now) throws InterruptedException {
        sweep(now);
        for (int user = 0; user < USERS; user++) {
            for (String session : ofUser("user" + user).names()) {
                say(isAlive(session, now) ? "alive" : "left", session);
            }
        }
    }

    /**
     * Logs users in and out, and sweeps.
     *
     * @param words the port of the server and the worker's name, and perhaps a time
     * @throws Exception if it can't go on
     */
    public static void main(String[] words) throws Exception {
        if (words.length > 2) {
            try (dchm.client.DchmClient client = dchm.client.DchmClient.connect(Integer.parseInt(words[0]))) {
                new Sessions(client.texts()).sweepOnce(Double.parseDouble(words[2]));
            }
            return;
        }
        Recipe.run(words, (client, worker) -> new Sessions(client.texts()).work());
    }
}
