package dchm.client;

import java.net.SocketAddress;
import java.util.List;
import java.util.concurrent.ForkJoinWorkerThread;
import java.util.function.Function;
import java.util.function.Supplier;

/** The lock of a {@link Lane}: it tells the lane what happens, and does what that says. */
final class Driver {
    private final SocketAddress address;
    private final Lane lane;
    private final long tickNanos;
    private final Completions completions;
    private final Listening listening;
    private final ShortLock lock = new ShortLock();
    // Kept by the lock.
    private boolean hasThread;
    private volatile Connection current;

    /** Of a lane whose shortest timeout is so long; the listening may be null. */
    Driver(SocketAddress address, Limits limits, long timeoutNanos, Completions completions, Listening listening) {
        this.address = address;
        this.completions = completions;
        this.listening = listening;
        lane = new Lane(limits);
        tickNanos = limits.tickNanos(timeoutNanos);
    }

    boolean hasConnection() {
        return current != null;
    }

    // ---- calls

    /** Begins a call. It waits for nothing. */
    void send(Call call) {
        boolean mustWrite;
        boolean mustStart;
        Connection connection;
        After after;
        lock.lock();
        try {
            mustWrite = lane.begin(call, System.nanoTime());
            connection = current;
            mustStart = !hasThread && lane.needsConnection();
            hasThread |= mustStart;
            after = after();
        } finally {
            lock.unlock();
        }
        finish(after);
        if (mustStart) {
            start();
        }
        if (mustWrite) {
            connection.write();
        }
        if (!call.isAwaited && connection != null) {
            connection.callReader();
        }
    }

    private void start() {
        try {
            new LaneThread(this, address).start();
        } catch (Throwable error) {
            // Such as OutOfMemoryError, if there may be no more threads.
            event(() -> {
                hasThread = false;
                lane.unable(error, System.nanoTime());
            });
        }
    }

    /** The reply to a call that was sent, waited for. An interrupt ends it, and is kept. */
    Wire.Reply await(Call call) {
        if (!call.isDone()) {
            Completions left = Completions.leave();
            awaitEnd(call);
            Completions.comeBack(left);
        }
        return call.reply();
    }

    private void awaitEnd(Call call) {
        Connection connection = current;
        boolean isWorker = Thread.currentThread() instanceof ForkJoinWorkerThread;
        boolean wasInterrupted = !isWorker && connection != null && connection.lead(call);
        call.isWaitedForHere();
        while (!call.isDone()) {
            wasInterrupted |= Thread.interrupted();
            if (wasInterrupted) {
                giveUp(call, "interrupted");
            } else {
                long left = call.due - System.nanoTime();
                if (left > 0) {
                    call.park(left);
                } else {
                    tick();
                }
            }
        }
        if (wasInterrupted) {
            Thread.currentThread().interrupt();
        }
    }

    /** Nobody waits for the call any more. */
    void giveUp(Call call, String why) {
        Connection mustWrite = after(() -> lane.giveUp(call, why, System.nanoTime()) ? current : null);
        if (mustWrite != null) {
            mustWrite.write();
        }
    }

    // ---- events

    /** What is left to be done once the lock is free. */
    private record After(List<Call> ended, Connection lost, Lane.News news) {
    }

    private After after() {
        Connection lost = current;
        if (lost != null && lost.stream().hasEnded()) {
            current = null;
        } else {
            lost = null;
        }
        return new After(lane.takeEnded(), lost, lane.takeNews());
    }

    private void finish(After after) {
        if (after.lost != null) {
            after.lost.close();
        }
        after.ended.forEach(Call::tell);
        if (after.news != null && listening != null) {
            listening.heard(after.news);
        }
    }

    /** An event of the lane, and what it leaves to be done. */
    private <T> T after(Supplier<T> event) {
        T result;
        After after;
        lock.lock();
        try {
            result = event.get();
            after = after();
        } finally {
            lock.unlock();
        }
        finish(after);
        return result;
    }

    private void event(Runnable event) {
        after(() -> {
            event.run();
            return null;
        });
    }

    /** It is later. The moment at which it has to be told again. */
    long tick() {
        long now = System.nanoTime();
        return after(() -> {
            lane.tick(now);
            return now + lane.nanosLeft(now, tickNanos);
        });
    }

    /** What replies leave to be done: whether they left nothing under way, and whether to write, or to wait for more. */
    record Came(boolean wasAlone, boolean mustWrite, boolean isExpecting) {
    }

    /** Replies came over the connection. */
    Came came(Connection from, List<Wire.Reply> replies, String fault, boolean isReader) {
        return after(() -> {
            Stream stream = from.stream();
            List<Call> answered = lane.came(stream, replies, fault, System.nanoTime());
            // A thread that leads would wait for itself.
            if (isReader) {
                stream.expectMore(answered);
            }
            boolean wasAlone = answered.size() == 1 && answered.get(0).isAwaited && stream.size() == 0;
            boolean isExpecting = stream.gathering.isExpecting();
            return new Came(wasAlone, !isExpecting && stream.mustWrite(), isExpecting);
        });
    }

    void lost(Connection from, Throwable why) {
        event(() -> lane.lost(from.stream(), why, System.nanoTime()));
    }

    /** Ends all that is under way. It waits for nothing. */
    void close() {
        event(lane::close);
    }

    /** What a stream says while the lock is held. */
    <T> T ask(Stream stream, Function<Stream, T> question) {
        lock.lock();
        try {
            return question.apply(stream);
        } finally {
            lock.unlock();
        }
    }

    /** The socket is connected: whether the attempt goes on, so that its stream is this connection's. */
    boolean connected(Connection connection) {
        return ask(null, none -> {
            Stream stream = lane.connected(System.nanoTime());
            if (stream != null) {
                connection.begin(stream);
                current = connection;
            }
            return stream != null;
        });
    }

    boolean isConnecting() {
        return ask(null, none -> lane.isConnecting());
    }

    void failed(Throwable why) {
        event(() -> lane.failed(why, System.nanoTime()));
    }

    /** What the thread is to do. */
    Lane.Step step() {
        return ask(null, none -> {
            Lane.Step step = lane.step(System.nanoTime());
            hasThread = step != Lane.Step.END;
            return step;
        });
    }

    Completions completions() {
        return completions;
    }
}
