package dchm.client;

import java.io.BufferedReader;
import java.io.IOException;
import java.io.InputStreamReader;
import java.io.PrintStream;
import java.net.URLDecoder;
import java.net.URLEncoder;
import java.nio.charset.StandardCharsets;
import java.nio.file.Path;
import java.time.Duration;
import java.util.ArrayList;
import java.util.Arrays;
import java.util.List;
import java.util.Map;
import java.util.concurrent.CompletableFuture;
import java.util.concurrent.CompletionException;

/** The driver of {@code clients/conformance/check}: it makes the calls that its lines tell, and prints what they end with. */
public final class ConformanceDriver {
    private static final Map<String, Fn<Object>> FUNCTIONS = Map.of("CONST", Fn.constant(), "DROP", Fn.drop(), "KEEP", Fn.keep(),
        "SUM", Fn.SUM.any(), "MAX", Fn.MAX.any(), "MIN", Fn.MIN.any(), "CONCAT", Fn.CONCAT.any(),
        "SUM_NONZERO", Fn.SUM_NONZERO.any(), "SUM_EXACT", Fn.SUM_EXACT.any());
    private static final Map<String, Fn<Long>> REDUCING = Map.of("SUM", Fn.SUM, "MAX", Fn.MAX, "MIN", Fn.MIN);
    private DchmClient.Builder options;
    private DchmClient client;

    private ConformanceDriver() {
    }

    /** The client has no such call. */
    private static final class Lacking extends RuntimeException {
        private static final long serialVersionUID = 1;
    }

    private static Object value(String word) {
        return switch (word.charAt(0)) {
            case '_' -> null;
            case 'i' -> (Object) Long.valueOf(word.substring(1));
            default -> word.substring(1);
        };
    }

    private static String outcome(Object found) {
        if (found instanceof Boolean isSo) {
            return isSo ? "did yes" : "did no";
        }
        if (found instanceof String text) {
            return "value t" + URLEncoder.encode(text, StandardCharsets.UTF_8).replace("+", "%20");
        }
        return found == null ? "value _" : "value i" + found;
    }

    private static String failure(Throwable error) {
        if (error instanceof CompletionException wrapped && wrapped.getCause() != null) {
            return failure(wrapped.getCause());
        }
        if (error instanceof RefusedException refused) {
            return "refused " + refused.number();
        }
        if (error instanceof NotMadeException) {
            return "notmade";
        }
        if (error instanceof OutcomeOpenException) {
            return "open";
        }
        String said = String.valueOf(error.getMessage());
        return said.startsWith("fault ") ? said.substring(0, "fault 1".length()) : "cannot";
    }

    private void at(String place, String seconds) {
        if (client != null) {
            client.close();
            client = null;
        }
        boolean isPort = place.chars().allMatch(Character::isDigit);
        options = (isPort ? DchmClient.at(Integer.parseInt(place)) : DchmClient.at(Path.of(place)))
            .timeout(Duration.ofSeconds(Long.parseLong(seconds))).connectTimeout(Duration.ofSeconds(10));
    }

    private DchmMap<Object> map() {
        if (client == null) {
            client = options.connect();
        }
        return client.map();
    }

    private static Object made(DchmMap<Object> map, String[] words) {
        String key = words.length > 1 ? words[1] : "";
        return switch (words[0]) {
            case "get" -> map.get(key);
            case "getOrDefault" -> map.getOrDefault(key, value(words[2]));
            case "containsKey" -> map.containsKey(key);
            case "put" -> map.put(key, value(words[2]));
            case "putIfAbsent" -> map.putIfAbsent(key, value(words[2]));
            case "remove" -> map.remove(key);
            case "removeIf" -> map.remove(key, value(words[2]));
            case "replace" -> map.replace(key, value(words[2]));
            case "replaceIf" -> map.replace(key, value(words[2]), value(words[3]));
            case "compute" -> map.compute(key, FUNCTIONS.get(words[2]), value(words[3]));
            case "computeIfAbsent" -> map.computeIfAbsent(key, FUNCTIONS.get(words[2]), value(words[3]));
            case "computeIfPresent" -> map.computeIfPresent(key, FUNCTIONS.get(words[2]), value(words[3]));
            case "merge" -> map.merge(key, value(words[3]), FUNCTIONS.get(words[2]));
            case "count" -> map.mappingCount();
            case "reduce" -> map.reduceToLong(REDUCING.get(words[1])).stream().boxed().findFirst().orElse(null);
            case "search" -> map.search(value(words[2]));
            default -> throw new Lacking();
        };
    }

    private static CompletableFuture<?> sent(AsyncDchmMap<Object> map, String[] words) {
        return switch (words[0]) {
            case "get" -> map.get(words[1]);
            case "put" -> map.put(words[1], value(words[2]));
            case "merge" -> map.merge(words[1], value(words[3]), FUNCTIONS.get(words[2]));
            default -> throw new Lacking();
        };
    }

    private String call(String[] words) {
        try {
            return outcome(made(map(), words));
        } catch (RuntimeException error) {
            return failure(error);
        }
    }

    private List<String> together(List<String[]> lines) {
        List<CompletableFuture<String>> calls = new ArrayList<>();
        for (String[] words : lines) {
            try {
                calls.add(sent(map().async(), words).handle((found, error) -> error == null ? outcome(found) : failure(error)));
            } catch (RuntimeException error) {
                calls.add(CompletableFuture.completedFuture(failure(error)));
            }
        }
        return calls.stream().map(CompletableFuture::join).toList();
    }

    private static String[] words(String line) {
        return Arrays.stream(line.split(" ", -1)).map(word -> URLDecoder.decode(word, StandardCharsets.UTF_8))
            .toArray(String[]::new);
    }

    public static void main(String[] none) throws IOException {
        BufferedReader lines = new BufferedReader(new InputStreamReader(System.in, StandardCharsets.UTF_8));
        PrintStream output = new PrintStream(System.out, true, StandardCharsets.UTF_8);
        ConformanceDriver driver = new ConformanceDriver();
        for (String line = lines.readLine(); line != null; line = lines.readLine()) {
            String[] words = words(line);
            String[] call = Arrays.copyOfRange(words, 1, words.length);
            switch (words[0]) {
                case "at" -> {
                    driver.at(call[0], call[1]);
                    output.println("ok");
                }
                case "call" -> output.println(driver.call(call));
                default -> {
                    List<String[]> several = new ArrayList<>();
                    for (int count = Integer.parseInt(call[0]); count > 0; count--) {
                        several.add(words(lines.readLine()));
                    }
                    driver.together(several).forEach(output::println);
                }
            }
        }
        System.exit(0);
    }
}
