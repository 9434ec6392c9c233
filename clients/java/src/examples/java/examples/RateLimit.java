package examples;

import static examples.Recipe.repeated;
import static examples.Recipe.say;

import dchm.client.DchmClient;
import dchm.client.Fn;
import dchm.client.NotMadeException;
import dchm.client.OutcomeOpenException;
import java.util.HashSet;
import java.util.Set;

/**
 * At most so many requests of a user in each window, though servers and workers are killed: RateLimit PORT WORKER.
 * `allowed`, `refused`, `open` or `away` is printed of each question, with its window. One merge by SUM counts and tells.
 * It isn't repeated: if its outcome is open, the request isn't allowed. The window and its user are noted before the first
 * count, so that any sweeper finds what a worker that died has left. With a third word, which is a time in seconds, it sweeps
 * once as if it were then, and ends.
 */
public final class RateLimit {
    private static final int MOST = 5;
    private static final double WINDOW_SECONDS = 1;
    /** A window is swept once no request of it can be under way any more. */
    private static final int LATER = 8;
    private static final Set<String> NOTED = new HashSet<>();

    private RateLimit() {
    }

    private static Index windows(DchmClient client) {
        return new Index(client.texts(), "windows", 8, 200);
    }

    private static Index usersOf(DchmClient client, String window) {
        return new Index(client.texts(), "users:" + window, 4, 100);
    }

    /** `allowed`, `refused`, `open`, or `away` if there is no server. */
    static String asks(DchmClient client, String user, String window) throws InterruptedException {
        if (NOTED.add(user + " " + window)) {
            windows(client).add(window);
            usersOf(client, window).add(user);
        }
        try {
            return client.longs().merge("rate:" + user + ":" + window, 1L, Fn.SUM) <= MOST ? "allowed" : "refused";
        } catch (NotMadeException error) {
            return "away";
        } catch (OutcomeOpenException error) {
            return "open";
        }
    }

    /** Removes the counts of old windows. A removal may be repeated, since a window never comes back. */
    static void sweep(DchmClient client, long now) throws InterruptedException {
        Index index = windows(client);
        for (String window : index.names()) {
            if (Long.parseLong(window) + LATER >= now) {
                continue;
            }
            Index users = usersOf(client, window);
            for (String user : users.names()) {
                repeated(() -> client.longs().remove("rate:" + user + ":" + window));
            }
            users.remove();
            index.drop(window);
        }
    }

    /**
     * Asks, and sweeps.
     *
     * @param words the port of the server and the worker's name, and perhaps a time
     * @throws Exception if it can't go on
     */
    public static void main(String[] words) throws Exception {
        if (words.length > 2) {
            try (DchmClient client = DchmClient.connect(Integer.parseInt(words[0]))) {
                sweep(client, (long) (Double.parseDouble(words[2]) / WINDOW_SECONDS));
            }
            return;
        }
        Recipe.run(words, (client, worker) -> {
            long window = (long) (Recipe.now() / WINDOW_SECONDS);
            say(asks(client, "ann", Long.toString(window)), window);
            if (worker.endsWith("0")) {
                sweep(client, window);
            }
            Thread.sleep(Recipe.PAUSE_MILLIS);
        });
    }
}
