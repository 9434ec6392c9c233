package dchm.client;

import java.util.Arrays;
import java.util.Comparator;
import java.util.concurrent.TimeUnit;
import java.util.function.Consumer;
import java.util.stream.Collectors;

/** Says what doesn't end within {@link #MOST_SECONDS}, and what each thread does then. */
final class Watchdog {
    private static final long MOST_SECONDS = Long.getLong("watchdog", 120);
    private static final long TURN_MILLIS = 500;
    private final Consumer<String> stalled;
    // What is under way, null if nothing is, and since when.
    private String name;
    private long begun;

    /** Tells the consumer, on a thread of its own. */
    Watchdog(Consumer<String> stalled) {
        this.stalled = stalled;
        Thread thread = new Thread(this::watch, "watchdog");
        thread.setDaemon(true);
        thread.start();
    }

    synchronized void begin(String what) {
        name = what;
        begun = System.nanoTime();
    }

    /** It has ended; after so many milliseconds. */
    synchronized long end() {
        name = null;
        return millis();
    }

    private long millis() {
        return TimeUnit.NANOSECONDS.toMillis(System.nanoTime() - begun);
    }

    /** What is under way for too long; null if nothing is. */
    private synchronized String overdue() {
        return name != null && millis() >= TimeUnit.SECONDS.toMillis(MOST_SECONDS) ? name : null;
    }

    private void watch() {
        String found = overdue();
        while (found == null) {
            try {
                Thread.sleep(TURN_MILLIS);
            } catch (InterruptedException error) {
                return;
            }
            found = overdue();
        }
        stalled.accept(found + " doesn't end within " + MOST_SECONDS + " s\n" + threads());
    }

    /** What each thread does; the one that runs the tests comes first. */
    private static String threads() {
        return Thread.getAllStackTraces().entrySet().stream()
            .sorted(Comparator.comparing(each -> !each.getKey().getName().equals("main")))
            .map(each -> "\"" + each.getKey().getName() + "\" " + each.getKey().getState() + Arrays.stream(each.getValue())
                .map(frame -> "\n    at " + frame).collect(Collectors.joining()))
            .collect(Collectors.joining("\n"));
    }
}
