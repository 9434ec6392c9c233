package dchm.client;

import java.nio.charset.StandardCharsets;
import java.util.List;
import java.util.Objects;
import java.util.SplittableRandom;
import java.util.concurrent.ConcurrentHashMap;
import java.util.concurrent.ConcurrentMap;
import java.util.function.BiFunction;
import java.util.function.Function;

/**
 * The same random calls of the client, against the real server, and of a ConcurrentHashMap: their results and their
 * exceptions agree. RandomCalls CALLS [SEED]. The last line is `N passed, M failed`, with all calls as one test.
 */
public final class RandomCalls {
    private static final List<String> KEYS = List.of("", "a", "Aa", "BB", "\u00e9", "\ud83d\ude00", "k".repeat(4095));
    private static final List<Object> VALUES = List.of(0L, 1L, -1L, Long.MAX_VALUE, Long.MIN_VALUE, "", "x",
        "\ud83d\ude00", "y".repeat(4096), "z".repeat(2048));
    private static final List<Fn<Object>> FUNCTIONS = List.of(Fn.SUM.any(), Fn.MAX.any(), Fn.MIN.any(), Fn.CONCAT.any(),
        Fn.SUM_NONZERO.any(), Fn.SUM_EXACT.any(), Fn.constant(), Fn.drop(), Fn.keep());
    private static final int KINDS = 18;
    private static final int TEXT_LIMIT = 4096;
    private final SplittableRandom random;

    private RandomCalls(long seed) {
        random = new SplittableRandom(seed);
    }

    private <T> T one(List<T> of) {
        return of.get(random.nextInt(of.size()));
    }

    private Function<ConcurrentMap<String, Object>, Object> call() {
        String key = one(KEYS);
        Object value = one(VALUES);
        Object other = one(VALUES);
        Fn<Object> named = one(FUNCTIONS);
        boolean isNull = random.nextInt(4) == 0;
        BiFunction<Object, Object, Object> local = (first, second) -> isNull ? null : other;
        return switch (random.nextInt(KINDS)) {
            case 0 -> map -> map.put(key, value);
            case 1 -> map -> map.get(key);
            case 2 -> map -> map.getOrDefault(key, isNull ? null : 3);
            case 3 -> map -> map.containsKey(key);
            case 4 -> map -> map.putIfAbsent(key, value);
            case 5 -> map -> map.remove(key);
            case 6 -> map -> map.remove(key, value);
            case 7 -> map -> map.replace(key, value);
            case 8 -> map -> map.replace(key, value, other);
            case 9 -> map -> map.compute(key, local);
            case 10 -> map -> map.computeIfAbsent(key, sought -> isNull ? null : value);
            case 11 -> map -> map.computeIfPresent(key, local);
            case 12 -> map -> map.merge(key, value, local);
            case 13 -> map -> map.size();
            case 14 -> map -> map.containsValue(value);
            default -> map -> map.merge(key, value, named);
        };
    }

    private static Object came(Function<ConcurrentMap<String, Object>, Object> call, ConcurrentMap<String, Object> map) {
        try {
            return call.apply(map);
        } catch (RuntimeException error) {
            return error.getClass();
        }
    }

    /** What differs first; null if nothing does. */
    private String difference(ConcurrentMap<String, Object> ours, int calls) {
        // Texts longer than a server takes are refused, as the server does.
        ConcurrentMap<String, Object> theirs = new ConcurrentHashMap<>() {
            private static final long serialVersionUID = 1;

            @Override
            public Object merge(String key, Object value, BiFunction<? super Object, ? super Object, ?> function) {
                return super.merge(key, value, (old, add) -> {
                    Object now = function.apply(old, add);
                    if (now instanceof String text && text.getBytes(StandardCharsets.UTF_8).length > TEXT_LIMIT) {
                        throw new IllegalArgumentException();
                    }
                    return now;
                });
            }
        };
        for (int i = 0; i < calls; i++) {
            Function<ConcurrentMap<String, Object>, Object> call = call();
            Object our = came(call, ours);
            Object their = came(call, theirs);
            if (!Objects.equals(our, their)) {
                return "call " + i + ": the client " + our + ", the hash map " + their;
            }
        }
        return null;
    }

    public static void main(String[] words) throws Exception {
        int calls = Integer.parseInt(words[0]);
        long seed = words.length > 1 ? Long.parseLong(words[1]) : System.nanoTime();
        boolean isSame;
        try (Server server = Server.real(); DchmClient client = server.client()) {
            String difference = new RandomCalls(seed).difference(client.map(), calls);
            System.out.printf("%s%d random calls, seed %d: %s%n", difference == null ? "" : "FAILED ", calls, seed,
                difference == null ? "all agree" : difference);
            System.out.println(difference == null ? "1 passed, 0 failed" : "0 passed, 1 failed");
            isSame = difference == null;
        }
        System.exit(isSame ? 0 : 1);
    }
}
