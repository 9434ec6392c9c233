import java.nio.charset.StandardCharsets;
import java.util.ArrayList;
import java.util.EnumMap;
import java.util.List;
import java.util.Map;
import java.util.concurrent.ConcurrentHashMap;
import java.util.concurrent.ExecutionException;
import java.util.concurrent.ExecutorService;
import java.util.concurrent.Executors;
import java.util.concurrent.Future;

/**
 * Makes the calls of crates/bench_map on the JDK's ConcurrentHashMap, and prints the same lines: give `keys N THREADS`
 * or `longest N`.
 */
public final class StripesPeer {
    /** How many calls of each kind all threads make together in a round, at least. */
    private static final int CALLS = 1_000_000;

    /** How many rounds the best is taken of, after one that isn't counted. */
    private static final int ROUNDS = 3;

    /** The kinds of calls, in the order in which they are made: they leave the map empty. */
    private enum Kind {
        PUT_NEW("put-new", false),
        PUT_OLD("put-old", true),
        GET("get", true),
        REMOVE("remove", true);

        private final String word;
        private final boolean finds;

        Kind(String word, boolean finds) {
            this.word = word;
            this.finds = finds;
        }
    }

    /** The text of a key, of which each call makes a new String, and the number that it has. */
    private record NumberedKey(int number, byte[] text) {}

    private static int turns(int keys) {
        return Math.max(CALLS / keys, 1);
    }

    /** The keys of one thread: from `first` on, each `step` above the one before, below `end`. */
    private static List<NumberedKey> share(int first, int step, int end) {
        List<NumberedKey> keys = new ArrayList<>();
        for (int number = first; number < end; number += step) {
            keys.add(new NumberedKey(number, String.format("key%07d", number).getBytes(StandardCharsets.ISO_8859_1)));
        }
        return keys;
    }

    private static Long call(ConcurrentHashMap<String, Long> map, Kind kind, NumberedKey numbered) {
        String key = new String(numbered.text, StandardCharsets.ISO_8859_1);
        return switch (kind) {
            case PUT_NEW -> map.put(key, (long) numbered.number);
            case PUT_OLD -> map.put(key, numbered.number + 1L);
            case GET -> map.get(key);
            case REMOVE -> map.remove(key);
        };
    }

    private static long timeKind(ConcurrentHashMap<String, Long> map, Kind kind, List<NumberedKey> keys) {
        int found = 0;
        long start = System.nanoTime();
        for (NumberedKey numbered : keys) {
            if (call(map, kind, numbered) != null) {
                found += 1;
            }
        }
        long spent = System.nanoTime() - start;
        if (found != (kind.finds ? keys.size() : 0)) {
            throw new IllegalStateException(kind.word + " found " + found);
        }
        return spent;
    }

    /** What one thread reaches in a round: calls a second of each kind. */
    private static Map<Kind, Double> ratesOfThread(ConcurrentHashMap<String, Long> map, List<NumberedKey> keys, int turns) {
        Map<Kind, Long> times = new EnumMap<>(Kind.class);
        for (int turn = 0; turn < turns; turn++) {
            for (Kind kind : Kind.values()) {
                times.merge(kind, timeKind(map, kind, keys), Long::sum);
            }
        }
        Map<Kind, Double> rates = new EnumMap<>(Kind.class);
        times.forEach((kind, nanos) -> rates.put(kind, (double) keys.size() * turns * 1e9 / Math.max(nanos, 1)));
        return rates;
    }

    /** A round on a new map: what all threads reach together. Each keeps a clock of its own. */
    private static Map<Kind, Double> round(ExecutorService executor, int keys, int threads)
            throws InterruptedException, ExecutionException {
        ConcurrentHashMap<String, Long> map = new ConcurrentHashMap<>();
        List<Future<Map<Kind, Double>>> all = new ArrayList<>();
        for (int thread = 0; thread < threads; thread++) {
            int first = thread;
            all.add(executor.submit(() -> ratesOfThread(map, share(first, threads, keys), turns(keys))));
        }
        Map<Kind, Double> sum = new EnumMap<>(Kind.class);
        for (Future<Map<Kind, Double>> rates : all) {
            rates.get().forEach((kind, rate) -> sum.merge(kind, rate, Double::sum));
        }
        return sum;
    }

    private static void printKeys(int keys, int threads) throws InterruptedException, ExecutionException {
        ExecutorService executor = Executors.newFixedThreadPool(threads);
        Map<Kind, Double> best = new EnumMap<>(Kind.class);
        round(executor, keys, threads);
        for (int round = 0; round < ROUNDS; round++) {
            round(executor, keys, threads).forEach((kind, rate) -> best.merge(kind, rate, Math::max));
        }
        executor.shutdown();
        best.forEach((kind, rate) -> System.out.printf("%s %.0f%n", kind.word, rate));
    }

    /** The longest single put of these new keys in one thread, in nanoseconds. */
    private static long longestPut(List<NumberedKey> keys) {
        ConcurrentHashMap<String, Long> map = new ConcurrentHashMap<>();
        long longest = 0;
        for (NumberedKey numbered : keys) {
            long start = System.nanoTime();
            call(map, Kind.PUT_NEW, numbered);
            longest = Math.max(longest, System.nanoTime() - start);
        }
        return longest;
    }

    private static void printLongest(int count) {
        List<NumberedKey> keys = share(0, 1, count);
        for (int round = 0; round < turns(count); round++) {
            longestPut(keys);
        }
        long least = Long.MAX_VALUE;
        for (int round = 0; round < ROUNDS; round++) {
            least = Math.min(least, longestPut(keys));
        }
        System.out.printf("longest-put %d%n", least / 1000);
    }

    public static void main(String[] words) throws InterruptedException, ExecutionException {
        if (words.length == 3 && words[0].equals("keys")) {
            printKeys(Integer.parseInt(words[1]), Integer.parseInt(words[2]));
        } else if (words.length == 2 && words[0].equals("longest")) {
            printLongest(Integer.parseInt(words[1]));
        } else {
            System.err.println("give words: keys N THREADS, or longest N");
            System.exit(2);
        }
    }
}
