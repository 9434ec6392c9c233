package examples;

import java.util.ArrayList;
import java.util.List;
import java.util.function.BooleanSupplier;

/** What the examples share: threads that work until the standard input ends. */
final class Workers {
    private Workers() {
    }

    /** The work of one thread. */
    interface Work {
        void run(int number, BooleanSupplier goesOn) throws InterruptedException;
    }

    /** Runs the work in so many threads until the standard input ends. */
    static void run(int count, Work work) throws Exception {
        boolean[] hasEnded = new boolean[1];
        List<Throwable> failures = new ArrayList<>();
        List<Thread> threads = new ArrayList<>();
        for (int i = 0; i < count; i++) {
            int number = i;
            Thread thread = new Thread(() -> {
                try {
                    work.run(number, () -> {
                        synchronized (hasEnded) {
                            return !hasEnded[0];
                        }
                    });
                } catch (InterruptedException | RuntimeException error) {
                    synchronized (failures) {
                        failures.add(error);
                    }
                }
            });
            thread.start();
            threads.add(thread);
        }
        while (System.in.read() >= 0) {
            // Nothing is asked of what is typed.
        }
        synchronized (hasEnded) {
            hasEnded[0] = true;
        }
        for (Thread thread : threads) {
            thread.join();
        }
        if (!failures.isEmpty()) {
            throw new IllegalStateException("a thread failed", failures.get(0));
        }
    }
}
