package dchm.client;

import java.io.EOFException;
import java.io.IOException;
import java.nio.ByteBuffer;
import java.nio.channels.CancelledKeyException;
import java.util.ArrayList;
import java.util.List;
import java.util.concurrent.locks.LockSupport;
import java.util.concurrent.locks.ReentrantLock;

/**
 * One socket, shared by threads. Whoever leads reads the replies, in the order in which the calls were sent, and writes
 * on if the socket was full. That is the thread of the lane. While one call after the other is waited for, it stands
 * aside, and the thread that waits leads: so a reply is handed from thread to thread only if several calls are under way.
 */
final class Connection {
    /** After how many calls, each alone under way and waited for, the reader stands aside, and how long at a time. */
    private static final int MOST_ALONE = 8;
    private static final long ASIDE_NANOS = 5_000_000;
    /** How long a thread that leads looks for its reply before it waits for it, if the last one came as soon. */
    private static final long SOON_NANOS = 20_000;
    private final Driver driver;
    private final Socket socket;
    private Stream stream;
    private Thread reader;
    // Held by whoever leads; the four below are the leader's alone.
    private final ReentrantLock leading = new ReentrantLock();
    private final Incoming in = new Incoming(Stream.BUFFER_BYTES);
    private int alone;
    private boolean comesSoon = true;
    private long nextTick;
    // How many calls other threads than the reader led to their end.
    private volatile long led;
    // Whether the reader stands aside, and whether it is to come back.
    private volatile boolean isAside;
    private volatile boolean isWanted;

    Connection(Driver driver, Socket socket) {
        this.driver = driver;
        this.socket = socket;
    }

    /** From here on this thread reads for the stream. */
    void begin(Stream begun) {
        stream = begun;
        reader = Thread.currentThread();
    }

    Stream stream() {
        return stream;
    }

    // ---- writing

    /** Writes what is due. The writer alone calls it. */
    void write() {
        try {
            ByteBuffer row = driver.ask(stream, Stream::next);
            while (row != null) {
                socket.write(row);
                if (row.hasRemaining()) {
                    stall();
                    return;
                }
                row = driver.ask(stream, Stream::next);
            }
        } catch (IOException | CancelledKeyException error) {
            driver.lost(this, error);
        }
    }

    private void stall() {
        driver.ask(stream, full -> {
            full.stall();
            return null;
        });
        socket.tellWhenWritable();
    }

    // ---- leading

    /** Reads until the call has ended, if nobody else does; returns whether this thread was interrupted meanwhile. */
    boolean lead(Call call) {
        if (!isAside || !leading.tryLock()) {
            return false;
        }
        boolean wasInterrupted;
        try {
            wasInterrupted = leadUntilDone(call);
        } finally {
            leading.unlock();
        }
        if (driver.ask(stream, each -> each.size() > 0)) {
            callReader();
        }
        return wasInterrupted;
    }

    private boolean leadUntilDone(Call call) {
        long begin = System.nanoTime();
        boolean wasInterrupted = false;
        try {
            lookFor(call, begin);
            while (!call.isDone() && !stream.hasEnded() && !wasInterrupted) {
                turn();
                // Select would not wait on a thread that is interrupted.
                wasInterrupted = Thread.interrupted();
            }
            comesSoon = System.nanoTime() - begin < 2 * SOON_NANOS;
            led++;
        } catch (Throwable error) {
            driver.lost(this, error);
        }
        return wasInterrupted;
    }

    /** Looks for the reply a while: to wait and be woken takes longer than a read of the map. */
    private void lookFor(Call call, long begin) throws IOException {
        while (comesSoon && !call.isDone() && System.nanoTime() - begin < SOON_NANOS) {
            readReplies();
        }
    }

    /** What the thread of the lane does with the connection until its end. */
    void serve() {
        try {
            if (driver.ask(stream, Stream::mustWrite)) {
                write();
            }
            while (!stream.hasEnded()) {
                leadUntilAlone();
                standAside();
            }
        } catch (Throwable error) {
            driver.lost(this, error);
        }
    }

    private void leadUntilAlone() throws IOException {
        leading.lock();
        try {
            alone = 0;
            while (!stream.hasEnded() && alone < MOST_ALONE) {
                // An interrupt is nobody's on this thread, and select would not wait.
                Thread.interrupted();
                turn();
            }
        } finally {
            leading.unlock();
        }
    }

    /** Lets the threads that wait lead, as long as they do and nobody calls the reader. */
    private void standAside() {
        isWanted = false;
        isAside = true;
        // A call that was sent before the flag was seen is read by the reader.
        boolean staysAside = driver.ask(stream, each -> each.size() == 0);
        while (staysAside && !isWanted) {
            long before = led;
            LockSupport.parkNanos(this, ASIDE_NANOS);
            staysAside = led != before && !stream.hasEnded();
        }
        isAside = false;
    }

    void callReader() {
        if (isAside) {
            isWanted = true;
            LockSupport.unpark(reader);
        }
    }

    /** Waits until something can be done, or a tick long, and does it. The leader alone calls it. */
    private void turn() throws IOException {
        boolean isWritable = socket.await(driver.completions().millisToWait(nextTick - System.nanoTime()));
        if (isWritable && driver.ask(stream, Stream::resume)) {
            socket.tellNoMoreOfWriting();
            write();
        }
        readReplies();
        if (System.nanoTime() - nextTick >= 0) {
            nextTick = driver.tick();
        }
    }

    // ---- reading

    private void readReplies() throws IOException {
        int count = socket.read(in);
        if (count == 0) {
            return;
        }
        List<Wire.Reply> replies = new ArrayList<>();
        String fault = in.take(replies);
        if (!replies.isEmpty() || fault != null) {
            Driver.Came came = driver.came(this, replies, fault, Thread.currentThread() == reader);
            alone = came.wasAlone() ? alone + 1 : 0;
            if (came.mustWrite() || came.isExpecting() && hasGathered()) {
                write();
            }
        }
        if (count < 0) {
            throw new EOFException("the server ended the connection");
        }
    }

    /** Waits a little for the threads that were answered, as they call again. Whether this thread has to write. */
    private boolean hasGathered() {
        Gathering gathering = stream.gathering;
        long begin = System.nanoTime();
        long most = gathering.mostNanos();
        while (gathering.isExpecting() && System.nanoTime() - begin < most) {
            Thread.yield();
        }
        return driver.ask(stream, Stream::hasGathered);
    }

    // ---- the end

    /** Closes the socket. */
    void close() {
        socket.close();
        LockSupport.unpark(reader);
    }
}
