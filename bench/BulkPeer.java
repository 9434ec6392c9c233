import java.util.concurrent.ConcurrentHashMap;

/**
 * Makes the bulk calls of crates/bench_map on the JDK's ConcurrentHashMap, and prints the same lines without that of the
 * view, which it has none of: give `bulk N`.
 */
public final class BulkPeer {
    /** How many rounds the best is taken of, after as many that aren't counted. */
    private static final int ROUNDS = 20;

    /** One thread, and then as many as there are processors. */
    private static final long[] THRESHOLDS = {Long.MAX_VALUE, 1};

    /** A value that no key has, so that a search looks at all. */
    private static final long ABSENT = -1;

    /** A bulk call that is measured. */
    private enum Call {
        REDUCE("reduce"),
        SEARCH("search");

        private final String word;

        Call(String word) {
            this.word = word;
        }

        /** Makes the call, and says whether it gave what it should. */
        private boolean isRight(ConcurrentHashMap<String, Long> map, long entries, long threshold) {
            return switch (this) {
                case REDUCE -> map.reduceValuesToLong(threshold, Long::longValue, 0, Long::sum)
                        == entries * (entries - 1) / 2;
                case SEARCH -> map.search(threshold, (key, value) -> value == ABSENT ? key : null) == null;
            };
        }
    }

    /** The map with the same entries: `key0000042` has 42. */
    private static ConcurrentHashMap<String, Long> filled(int entries) {
        ConcurrentHashMap<String, Long> map = new ConcurrentHashMap<>();
        for (int number = 0; number < entries; number++) {
            map.put(String.format("key%07d", number), (long) number);
        }
        return map;
    }

    private static long time(ConcurrentHashMap<String, Long> map, Call call, int entries, long threshold) {
        long start = System.nanoTime();
        boolean isRight = call.isRight(map, entries, threshold);
        long spent = System.nanoTime() - start;
        if (!isRight) {
            throw new IllegalStateException(call.word);
        }
        return Math.max(spent, 1);
    }

    private static long best(ConcurrentHashMap<String, Long> map, Call call, int entries, long threshold) {
        for (int round = 0; round < ROUNDS; round++) {
            time(map, call, entries, threshold);
        }
        long best = Long.MAX_VALUE;
        for (int round = 0; round < ROUNDS; round++) {
            best = Math.min(best, time(map, call, entries, threshold));
        }
        return best;
    }

    public static void main(String[] words) {
        if (words.length != 2 || !words[0].equals("bulk")) {
            System.err.println("give words: bulk N");
            System.exit(2);
        }
        int entries = Integer.parseInt(words[1]);
        ConcurrentHashMap<String, Long> map = filled(entries);
        for (long threshold : THRESHOLDS) {
            for (Call call : Call.values()) {
                long nanos = best(map, call, entries, threshold);
                System.out.printf("%s %d %d %.0f%n", call.word, threshold, nanos, entries * 1e9 / nanos);
            }
        }
    }
}
