package dchm.client;

import java.nio.file.Path;
import java.util.ArrayList;
import java.util.Arrays;
import java.util.List;
import java.util.Objects;
import java.util.SplittableRandom;
import java.util.concurrent.CompletableFuture;
import java.util.concurrent.atomic.AtomicLong;
import java.util.concurrent.atomic.AtomicReference;

/**
 * Calls with long texts by threads that share a client at a Unix socket: Soak PATH THREADS CALLS SECONDS. Each thread sends
 * Gets and a Put together, and has keys of its own, so each reply is known. It prints `CALLS calls, the longest MILLIS ms`.
 * The status is 1 if a reply is wrong, a call fails, or one takes more than so many seconds.
 */
public final class Soak {
    private static final int KEYS = 50, TEXT = 4000, GETS = 31;
    private final AsyncDchmMap<String> map;
    private final long rounds;
    private final AtomicLong longest = new AtomicLong();
    private final AtomicReference<Throwable> failure = new AtomicReference<>();

    private Soak(AsyncDchmMap<String> map, long rounds) {
        this.map = map;
        this.rounds = rounds;
    }

    /** A text of 4,000 bytes that no other call has. */
    private static String text(String key, long number) {
        String head = key + " " + number + " ";
        return head + "x".repeat(TEXT - head.length());
    }

    private static String start(String text) {
        return text == null ? "nothing" : text.substring(0, Math.min(30, text.length()));
    }

    /** The call, whose reply is to be this. */
    private CompletableFuture<Void> judged(CompletableFuture<String> call, String wanted, String what) {
        long began = System.nanoTime();
        return call.thenAccept(came -> {
            longest.accumulateAndGet(System.nanoTime() - began, Math::max);
            if (!Objects.equals(wanted, came)) {
                throw new AssertionError(what + ": wanted " + start(wanted) + ", came " + start(came));
            }
        });
    }

    private void work(int thread) {
        SplittableRandom random = new SplittableRandom(thread);
        String[] keys = new String[KEYS];
        String[] values = new String[KEYS];
        Arrays.setAll(keys, place -> "thread " + thread + " key " + place);
        for (long number = 0; number < rounds && failure.get() == null; number++) {
            List<CompletableFuture<Void>> calls = new ArrayList<>();
            for (int count = 0; count < GETS; count++) {
                int place = random.nextInt(KEYS);
                calls.add(judged(map.get(keys[place]), values[place], "get of " + keys[place]));
            }
            int place = random.nextInt(KEYS);
            String text = text(keys[place], number);
            calls.add(judged(map.put(keys[place], text), values[place], "put of " + keys[place]));
            values[place] = text;
            calls.forEach(CompletableFuture::join);
        }
    }

    private void run(int count) throws InterruptedException {
        List<Thread> threads = new ArrayList<>();
        for (int thread = 0; thread < count; thread++) {
            int number = thread;
            threads.add(new Thread(() -> work(number)));
            threads.get(thread).setUncaughtExceptionHandler((where, error) -> failure.compareAndSet(null, error));
        }
        threads.forEach(Thread::start);
        for (Thread thread : threads) {
            thread.join();
        }
    }

    public static void main(String[] words) throws InterruptedException {
        int threads = Integer.parseInt(words[1]);
        long rounds = Long.parseLong(words[2]) / threads / (GETS + 1);
        long most = Long.parseLong(words[3]) * 1000;
        try (DchmClient client = DchmClient.connect(Path.of(words[0]))) {
            Soak soak = new Soak(client.texts().async(), rounds);
            soak.run(threads);
            long millis = soak.longest.get() / 1_000_000;
            System.out.println(rounds * threads * (GETS + 1) + " calls, the longest " + millis + " ms");
            if (soak.failure.get() != null) {
                soak.failure.get().printStackTrace();
            }
            System.exit(soak.failure.get() != null || millis > most ? 1 : 0);
        }
    }
}
