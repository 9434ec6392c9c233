package dchm.client;

import java.time.Duration;
import java.util.Arrays;
import java.util.Set;
import java.util.concurrent.CompletableFuture;
import java.util.concurrent.ConcurrentHashMap;
import java.util.function.Function;

/** The client of a server: it chooses a lane for each call, and tells what came of it. */
final class ServerClient implements DchmClient {
    private final DchmClient.Builder options;
    private final long timeoutNanos;
    private final Completions completions;
    private final Listening listening;
    private final Driver[] lanes;
    private final ThreadLocal<KeyOrder> order = ThreadLocal.withInitial(KeyOrder::new);
    /** The lanes of calls of the whole map that are under way. */
    private final Set<Driver> wholeMap = ConcurrentHashMap.newKeySet();
    private volatile boolean isClosed;

    ServerClient(DchmClient.Builder chosen) {
        options = new DchmClient.Builder(chosen);
        timeoutNanos = options.timeout.toNanos();
        completions = new Completions(options.callbacks);
        listening = options.listener == null ? null : new Listening(options.listener, completions, place());
        lanes = new Driver[options.hasReadLane ? 2 * options.connections : options.connections];
        Arrays.setAll(lanes, number -> driver(options.timeout));
    }

    private String place() {
        return options.address.toString();
    }

    private Driver driver(Duration timeout) {
        Limits limits = new Limits(place(), options.inFlight, options.waiting, options.connectTimeout.toNanos(),
            options.idle.toNanos());
        return new Driver(options.address, limits, timeout.toNanos(), completions, listening);
    }

    /** Waits for the first connection. */
    void open() {
        Call opener = Call.opener(System.nanoTime() + 2 * options.connectTimeout.toNanos());
        // Else it would be told of the interrupt, or have its connection, as the threads happen to run.
        refuseIfInterrupted(opener);
        lanes[0].send(opener);
        lanes[0].await(opener);
    }

    boolean hasConnection() {
        return Arrays.stream(lanes).anyMatch(Driver::hasConnection);
    }

    @Override
    public DchmMap<Object> map() {
        return new ServerMap<>(this, Object.class);
    }

    @Override
    public DchmMap<Long> longs() {
        return new ServerMap<>(this, Long.class);
    }

    @Override
    public DchmMap<String> texts() {
        return new ServerMap<>(this, String.class);
    }

    @Override
    public void close() {
        isClosed = true;
        for (Driver lane : lanes) {
            lane.close();
        }
        wholeMap.forEach(Driver::close);
    }

    // ---- calls

    private void refuseIfClosed() {
        if (isClosed) {
            throw new IllegalStateException("the client is closed");
        }
    }

    /** How many calls may be under way at a time. */
    int mostAhead() {
        return (int) Math.min(Integer.MAX_VALUE, (long) options.inFlight * options.connections);
    }

    private Driver laneOf(byte[] key, boolean isRead) {
        int number = options.connections == 1 ? 0 : Math.floorMod(Arrays.hashCode(key), options.connections);
        return lanes[isRead ? options.connections + number : number];
    }

    /** The lane of a call for which its thread waits: behind those of that thread and key which are under way. */
    private Driver laneOf(byte[] key, byte[] frame) {
        return laneOf(key, options.hasReadLane && order.get().isOfReads(key, !Wire.isChange(frame)));
    }

    /** Sends a request of a key and waits for the reply. */
    Wire.Reply ask(byte[] key, byte[] frame) {
        refuseIfClosed();
        long begin = System.nanoTime();
        Call call = Call.awaited(frame, begin + timeoutNanos);
        return asked(laneOf(key, frame), call, begin);
    }

    private static void refuseIfInterrupted(Call call) {
        if (Thread.currentThread().isInterrupted()) {
            throw call.notMade("interrupted before it was sent", null);
        }
    }

    private Wire.Reply asked(Driver lane, Call call, long begin) {
        try {
            refuseIfInterrupted(call);
            lane.send(call);
            Wire.Reply reply = Told.checked(lane.await(call), call.frame);
            heard(call.frame, begin, null);
            return reply;
        } catch (RuntimeException error) {
            heard(call.frame, begin, error);
            throw error;
        }
    }

    private void heard(byte[] frame, long begin, Throwable failure) {
        if (listening != null) {
            listening.ended(frame, begin, failure);
        }
    }

    /** Sends a request of a key ahead, to be waited for by {@link Ahead#await}. */
    Ahead send(byte[] key, byte[] frame) {
        refuseIfClosed();
        Driver lane = laneOf(key, frame);
        Call call = Call.ahead(frame, System.nanoTime() + timeoutNanos, null);
        lane.send(call);
        return new Ahead(call, lane);
    }

    /** A call that was sent ahead. */
    record Ahead(Call call, Driver lane) {
        Wire.Reply await() {
            return Told.checked(lane.await(call), call.frame);
        }
    }

    /** Sends a request of a key; the future has what the function makes of its reply. */
    <T> CompletableFuture<T> send(byte[] key, byte[] frame, Function<Wire.Reply, T> result) {
        refuseIfClosed();
        long begin = System.nanoTime();
        Answer<T> answer = new Answer<>(result, completions, listening, begin);
        Call.Owner owner = answer;
        boolean isRead = false;
        if (options.hasReadLane) {
            KeyOrder own = order.get();
            isRead = own.begin(key, !Wire.isChange(frame));
            owner = () -> {
                own.end(key);
                answer.ended();
            };
        }
        Driver lane = laneOf(key, isRead);
        lane.send(answer.of(Call.ahead(frame, begin + timeoutNanos, owner), lane));
        return answer;
    }

    // ---- counts, of which the server knows the reply: each counts the changes that were sent before it over its connection

    Wire.Reply askCount() {
        refuseIfClosed();
        long begin = System.nanoTime();
        return asked(lanes[0], Call.awaited(Wire.count(), begin + timeoutNanos), begin);
    }

    /** A future that has what the function makes of the reply to a count. */
    <T> CompletableFuture<T> sendCount(Function<Wire.Reply, T> result) {
        refuseIfClosed();
        long begin = System.nanoTime();
        Answer<T> answer = new Answer<>(result, completions, listening, begin);
        lanes[0].send(answer.of(Call.ahead(Wire.count(), begin + timeoutNanos, answer), lanes[0]));
        return answer;
    }

    // ---- calls that go over the whole map, over a connection of their own, since what is sent behind one would wait for it

    /** Makes a call of the whole map. */
    Wire.Reply askWhole(byte[] frame) {
        refuseIfClosed();
        long begin = System.nanoTime();
        Driver lane = wholeLane();
        try {
            return asked(lane, Call.awaited(frame, begin + options.wholeMapTimeout.toNanos()), begin);
        } finally {
            endWhole(lane);
        }
    }

    /** Makes a call of the whole map; the future has what the function makes of its reply. */
    <T> CompletableFuture<T> sendWhole(byte[] frame, Function<Wire.Reply, T> result) {
        refuseIfClosed();
        long begin = System.nanoTime();
        Driver lane = wholeLane();
        Answer<T> answer = new Answer<>(result, completions, listening, begin);
        lane.send(answer.of(Call.ahead(frame, begin + options.wholeMapTimeout.toNanos(), () -> {
            completions.add(() -> endWhole(lane));
            answer.ended();
        }), lane));
        return answer;
    }

    private Driver wholeLane() {
        Driver lane = driver(options.wholeMapTimeout);
        wholeMap.add(lane);
        if (isClosed) {
            endWhole(lane);
        }
        refuseIfClosed();
        return lane;
    }

    private void endWhole(Driver lane) {
        wholeMap.remove(lane);
        lane.close();
    }
}
