package examples;

import dchm.client.DchmClient;
import dchm.client.DchmMap;
import dchm.client.NotMadeException;
import dchm.client.OutcomeOpenException;
import java.io.IOException;
import java.util.Arrays;
import java.util.List;
import java.util.function.Supplier;
import java.util.function.UnaryOperator;

/** What the recipes share: a worker that goes on until its standard input ends, and calls that may be repeated. */
final class Recipe {
    static final int PAUSE_MILLIS = 20;

    private Recipe() {
    }

    /** What a worker does again and again. */
    interface Work {
        void run(DchmClient client, String worker) throws InterruptedException;
    }

    /** Runs the work, with the port and the worker's name that the program was told. */
    static void run(String[] words, Work work) throws InterruptedException {
        try (DchmClient client = DchmClient.at(Integer.parseInt(words[0])).lazy()) {
            Thread input = watched();
            while (input.isAlive()) {
                work.run(client, words[1]);
            }
        }
    }

    /** A thread that ends with the standard input. */
    private static Thread watched() {
        Thread input = new Thread(() -> {
            try {
                while (System.in.read() >= 0) {
                    // Nothing is asked of what is typed.
                }
            } catch (IOException error) {
                // It is no input any more.
            }
        });
        input.setDaemon(true);
        input.start();
        return input;
    }

    /** Prints a line, whole. */
    static void say(Object... words) {
        System.out.println(String.join(" ", Arrays.stream(words).map(Object::toString).toList()));
    }

    /** The answer to a call that may be made twice, however often that takes. */
    static <T> T repeated(Supplier<T> call) throws InterruptedException {
        while (true) {
            try {
                return call.get();
            } catch (NotMadeException | OutcomeOpenException error) {
                Thread.sleep(PAUSE_MILLIS);
            }
        }
    }

    /** A text that is to take the place of the old one, null if there is none. It never was there before. */
    static void change(DchmMap<String> map, String key, String old, String text) throws InterruptedException {
        if (old == null) {
            repeated(() -> map.putIfAbsent(key, text));
        } else {
            repeated(() -> map.replace(key, old, text));
        }
    }

    /**
     * Changes a text `VERSION WORD..` until the change gives null: there is nothing more to do. Returns the words. What
     * it does may be repeated after an open outcome: versions only rise, so no text comes back, and what was done is seen.
     */
    static List<String> settled(DchmMap<String> map, String key, UnaryOperator<List<String>> change) throws InterruptedException {
        while (true) {
            String text = repeated(() -> map.get(key));
            String[] parts = (text == null ? "0" : text).split(" ");
            List<String> words = List.of(parts).subList(1, parts.length);
            List<String> after = change.apply(words);
            if (after == null) {
                return words;
            }
            String version = Long.toString(Long.parseLong(parts[0]) + 1);
            change(map, key, text, after.isEmpty() ? version : version + " " + String.join(" ", after));
        }
    }

    /** The moment, in seconds. */
    static double now() {
        return System.currentTimeMillis() / 1e3;
    }
}
