package dchm.client;

import java.util.concurrent.CompletableFuture;
import java.util.concurrent.ConcurrentLinkedQueue;
import java.util.concurrent.Executor;
import java.util.concurrent.TimeUnit;
import java.util.concurrent.atomic.AtomicBoolean;
import java.util.concurrent.atomic.AtomicInteger;
import java.util.concurrent.atomic.AtomicLong;

/**
 * Completes futures on an executor, so that callbacks run there. One task of the executor completes all, as long as no
 * callback blocks. Another takes its place at once if it waits for a call of a client, and after a moment, which threads
 * that read notice, if it waits for anything else.
 */
final class Completions {
    private static final Executor COMMON = new CompletableFuture<>().defaultExecutor();
    /** How long a callback may take before another task goes on. */
    static final long MOMENT_NANOS = 1_000_000;
    /** Of the thread that completes futures. */
    private static final ThreadLocal<Completions> HERE = new ThreadLocal<>();
    private final Executor executor;
    private final ConcurrentLinkedQueue<Runnable> queue = new ConcurrentLinkedQueue<>();
    // Whether a task was given to the executor that hasn't begun, and how many are at work and don't wait.
    private final AtomicBoolean isComing = new AtomicBoolean();
    private final AtomicInteger atWork = new AtomicInteger();
    private final AtomicLong begun = new AtomicLong();
    private volatile long seen;
    private volatile long seenAt;

    /** With the executor, or the common pool for null. */
    Completions(Executor executor) {
        this.executor = executor == null ? COMMON : executor;
    }

    void add(Runnable completion) {
        queue.add(completion);
        if (atWork.get() == 0) {
            callTask();
        }
    }

    private void callTask() {
        if (isComing.get() || isComing.getAndSet(true)) {
            return;
        }
        try {
            executor.execute(this::complete);
        } catch (Throwable error) {
            // One that takes no task changes nothing of what is told.
            COMMON.execute(this::complete);
        }
    }

    private void complete() {
        isComing.set(false);
        atWork.incrementAndGet();
        HERE.set(this);
        try {
            for (Runnable next = queue.poll(); next != null; next = queue.poll()) {
                begun.lazySet(begun.get() + 1);
                next.run();
            }
        } finally {
            HERE.remove();
            atWork.decrementAndGet();
        }
        if (!queue.isEmpty()) {
            callTask();
        }
    }

    /** This thread is going to wait. If it completes futures, another does meanwhile; {@link #comeBack} ends that. */
    static Completions leave() {
        Completions own = HERE.get();
        if (own != null) {
            own.atWork.decrementAndGet();
            if (!own.queue.isEmpty()) {
                own.callTask();
            }
        }
        return own;
    }

    static void comeBack(Completions left) {
        if (left != null) {
            left.atWork.incrementAndGet();
        }
    }

    /** Whether futures wait to be completed. If none was for a moment, another task is called. */
    boolean isHeldUp() {
        if (queue.isEmpty()) {
            return false;
        }
        long now = System.nanoTime();
        if (begun.get() != seen) {
            seen = begun.get();
            seenAt = now;
        } else if (now - seenAt >= MOMENT_NANOS) {
            seenAt = now;
            callTask();
        }
        return true;
    }

    /** For how long a thread that reads may wait, if it is to be told of the time after so long. */
    long millisToWait(long nanos) {
        return Math.max(1, TimeUnit.NANOSECONDS.toMillis(isHeldUp() ? Math.min(MOMENT_NANOS, nanos) : nanos));
    }
}
