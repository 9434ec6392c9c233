package dchm.client;

import java.util.concurrent.atomic.AtomicInteger;
import org.junit.runner.Description;
import org.junit.runner.JUnitCore;
import org.junit.runner.Result;
import org.junit.runner.notification.Failure;
import org.junit.runner.notification.RunListener;

/**
 * Runs the tests of the client, or those of the classes that are named. It prints each test as it begins. A test that
 * doesn't end is named, with what each thread does, and ends the program; so does the first that fails, with
 * {@code -Dfirst=true}. The last line is `N passed, M failed`.
 */
public final class Tests {
    private static final Class<?>[] ALL = {PageTest.class, MapTest.class, RowTest.class, OutcomeTest.class,
        StreamTest.class, DeadlineTest.class, StallTest.class, ContractTest.class};

    private Tests() {
    }

    /** Prints what begins, and counts what has ended. */
    private static final class Told extends RunListener {
        private final Watchdog watchdog = new Watchdog(this::ends);
        private final AtomicInteger ended = new AtomicInteger();

        @Override
        public void testStarted(Description test) {
            System.out.println("begins " + test.getDisplayName());
            watchdog.begin(test.getDisplayName());
        }

        @Override
        public void testFinished(Description test) {
            System.out.println("ended after " + watchdog.end() + " ms");
            ended.incrementAndGet();
        }

        @Override
        public void testFailure(Failure failure) {
            if (Boolean.getBoolean("first")) {
                ends(failure.getTestHeader() + ": " + failure.getTrace());
            }
        }

        private void ends(String what) {
            System.out.printf("FAILED %s%n%d passed, 1 failed%n", what, ended.get());
            System.exit(1);
        }
    }

    private static Class<?>[] chosen(String[] words) throws ClassNotFoundException {
        Class<?>[] classes = new Class<?>[words.length];
        for (int i = 0; i < words.length; i++) {
            classes[i] = Class.forName("dchm.client." + words[i]);
        }
        return words.length == 0 ? ALL : classes;
    }

    public static void main(String[] words) throws ClassNotFoundException {
        JUnitCore core = new JUnitCore();
        core.addListener(new Told());
        Result result = core.run(chosen(words));
        result.getFailures().forEach(failure -> System.out.println("FAILED " + failure.getTestHeader() + ": "
            + failure.getTrace()));
        int failed = result.getFailureCount();
        System.out.printf("%d passed, %d failed%n", result.getRunCount() - failed, failed);
        System.exit(result.wasSuccessful() ? 0 : 1);
    }
}
