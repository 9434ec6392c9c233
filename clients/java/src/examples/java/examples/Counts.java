package examples;

import static examples.Recipe.repeated;
import static examples.Recipe.say;

import dchm.client.DchmMap;

/**
 * A count that is exact, though servers and workers are killed: Counts PORT WORKER. Each worker has a key of its own, which
 * it alone changes from n to n + 1; the count is their sum. `added N` is printed.
 */
public final class Counts {
    private Counts() {
    }

    /** Adds 1 to the worker's own key; returns what it is then. No number comes back, so the change may be repeated. */
    static long add(DchmMap<Long> map, String counter, String worker) throws InterruptedException {
        String key = "count:" + counter + ":" + worker;
        Long before = repeated(() -> map.get(key));
        if (before == null) {
            repeated(() -> map.putIfAbsent(key, 1L));
            return 1;
        }
        repeated(() -> map.replace(key, before, before + 1));
        return before + 1;
    }

    /**
     * Counts.
     *
     * @param words the port of the server and the worker's name
     * @throws Exception if it can't go on
     */
    public static void main(String[] words) throws Exception {
        Recipe.run(words, (client, worker) -> say("added", add(client.longs(), "hits", worker)));
    }
}
