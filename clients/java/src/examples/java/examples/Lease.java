package examples;

import static examples.Recipe.repeated;
import static examples.Recipe.say;

import dchm.client.DchmMap;
import java.util.UUID;

/**
 * A lease that one worker has at a time, with a fencing number, though servers and workers are killed: Lease PORT WORKER.
 * A lease is the text `NUMBER HOLDER EXPIRES`. Each new holder has a higher number. A holder may be late and not know that
 * its time is over; so what it writes has its number, and nothing of a lower number is written over a higher one. `holds
 * NUMBER HOLDER` and `wrote NUMBER COUNT` are printed.
 */
public final class Lease {
    private static final double LEASE_SECONDS = 1;
    private static final int WRITES = 20;
    private static final String KEY = "lease:printer";

    private Lease() {
    }

    /** The lease as its text, if the holder, which is a new name, has it now; else null. */
    static String acquire(DchmMap<String> map, String holder, double now) throws InterruptedException {
        String old = repeated(() -> map.get(KEY));
        String[] parts = (old == null ? "0 - 0" : old).split(" ");
        if (Double.parseDouble(parts[2]) > now) {
            return null;
        }
        String mine = (Long.parseLong(parts[0]) + 1) + " " + holder + " " + (now + LEASE_SECONDS);
        Recipe.change(map, KEY, old, mine);
        return mine.equals(repeated(() -> map.get(KEY))) ? mine : null;
    }

    /** Ends a lease before its time; the number stays, so that the next one is higher. */
    static void release(DchmMap<String> map, String mine) throws InterruptedException {
        Recipe.change(map, KEY, mine, mine.substring(0, mine.lastIndexOf(' ')) + " 0");
    }

    /** Counts a text `NUMBER COUNT ID` up, unless a higher number was there; returns the count, or -1. */
    static long write(DchmMap<String> map, String key, long number, String id) throws InterruptedException {
        while (true) {
            String old = repeated(() -> map.get(key));
            String[] parts = (old == null ? "0 0 -" : old).split(" ");
            long count = Long.parseLong(parts[1]);
            if (parts[2].equals(id)) {
                return count;
            }
            if (Long.parseLong(parts[0]) > number) {
                return -1;
            }
            Recipe.change(map, key, old, number + " " + (count + 1) + " " + id);
        }
    }

    /**
     * Holds the lease and writes, again and again.
     *
     * @param words the port of the server and the worker's name
     * @throws Exception if it can't go on
     */
    public static void main(String[] words) throws Exception {
        Recipe.run(words, (client, worker) -> {
            String mine = acquire(client.texts(), worker + "-" + UUID.randomUUID(), Recipe.now());
            if (mine == null) {
                Thread.sleep(Recipe.PAUSE_MILLIS);
                return;
            }
            long number = Long.parseLong(mine.split(" ")[0]);
            say("holds", number, mine.split(" ")[1]);
            for (int i = 0; i < WRITES; i++) {
                long count = write(client.texts(), "paper", number, UUID.randomUUID().toString());
                if (count < 0) {
                    return;
                }
                say("wrote", number, count);
            }
            release(client.texts(), mine);
        });
    }
}
