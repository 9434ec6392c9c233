package dchm.client;

import java.util.ArrayList;
import java.util.List;
import java.util.SplittableRandom;
import java.util.concurrent.CompletableFuture;
import java.util.concurrent.Semaphore;
import java.util.concurrent.atomic.AtomicBoolean;
import java.util.concurrent.atomic.AtomicLong;

/**
 * How many calls a second the client makes: Rates PORT SECONDS ROW.. A row is `get`, `put`, `sum` or `lambda`, and how:
 * `get:THREADS` blocks in so many threads on one connection, `get:ahead:N` has N calls under way. Keys are drawn at
 * random from a thousand, of `sum` and `lambda` it is one. `ROW RATE` is printed of each.
 */
public final class Rates {
    private static final int KEYS = 1000;
    private static final String[] NAMES = new String[KEYS];
    private static final double WARM_SECONDS = 1.5;

    private Rates() {
    }

    private static void call(DchmMap<Long> map, String kind, SplittableRandom random) {
        String key = NAMES[random.nextInt(KEYS)];
        switch (kind) {
            case "get" -> map.get(key);
            case "put" -> map.put(key, random.nextLong());
            case "sum" -> map.merge(NAMES[0], 1L, Fn.SUM);
            case "lambda" -> map.merge(NAMES[0], 1L, (old, add) -> old + add);
            default -> throw new IllegalArgumentException(kind);
        }
    }

    private static CompletableFuture<Long> send(AsyncDchmMap<Long> map, String kind, SplittableRandom random) {
        String key = NAMES[random.nextInt(KEYS)];
        return switch (kind) {
            case "get" -> map.get(key);
            case "put" -> map.put(key, random.nextLong());
            default -> throw new IllegalArgumentException(kind);
        };
    }

    /** The calls a second that the counter shows, behind the time that isn't counted. */
    private static double rate(AtomicLong done, double seconds) throws InterruptedException {
        Thread.sleep((long) (WARM_SECONDS * 1e3));
        long before = done.get();
        long begin = System.nanoTime();
        Thread.sleep((long) (seconds * 1e3));
        return (done.get() - before) / ((System.nanoTime() - begin) / 1e9);
    }

    private static double blocking(DchmMap<Long> map, String kind, int count, double seconds) throws InterruptedException {
        AtomicLong done = new AtomicLong();
        AtomicBoolean hasEnded = new AtomicBoolean();
        List<Thread> threads = new ArrayList<>();
        for (int i = 0; i < count; i++) {
            SplittableRandom random = new SplittableRandom(i);
            Thread thread = new Thread(() -> {
                while (!hasEnded.get()) {
                    call(map, kind, random);
                    done.incrementAndGet();
                }
            });
            thread.start();
            threads.add(thread);
        }
        double rate = rate(done, seconds);
        hasEnded.set(true);
        for (Thread thread : threads) {
            thread.join();
        }
        return rate;
    }

    private static double ahead(DchmMap<Long> map, String kind, int most, double seconds) throws InterruptedException {
        AsyncDchmMap<Long> async = map.async();
        AtomicLong done = new AtomicLong();
        Semaphore room = new Semaphore(most);
        AtomicBoolean hasEnded = new AtomicBoolean();
        Thread sender = new Thread(() -> {
            SplittableRandom random = new SplittableRandom(1);
            while (!hasEnded.get()) {
                room.acquireUninterruptibly();
                send(async, kind, random).thenAccept(value -> {
                    done.incrementAndGet();
                    room.release();
                });
            }
        });
        sender.start();
        double rate = rate(done, seconds);
        hasEnded.set(true);
        sender.join();
        room.acquire(most);
        return rate;
    }

    public static void main(String[] words) throws Exception {
        int port = Integer.parseInt(words[0]);
        double seconds = Double.parseDouble(words[1]);
        for (int i = 0; i < KEYS; i++) {
            NAMES[i] = String.format("key%07d", i);
        }
        for (int i = 2; i < words.length; i++) {
            String[] parts = words[i].split(":");
            boolean isAhead = parts[1].equals("ahead");
            int count = Integer.parseInt(parts[parts.length - 1]);
            try (DchmClient client = DchmClient.at(port).inFlight(Math.max(256, count)).connect()) {
                DchmMap<Long> map = client.longs();
                double rate = isAhead ? ahead(map, parts[0], count, seconds) : blocking(map, parts[0], count, seconds);
                System.out.printf("%s %.0f%n", words[i], rate);
            }
        }
    }
}
