package dchm.client;

import java.nio.ByteBuffer;
import java.util.ArrayDeque;
import java.util.ArrayList;
import java.util.Iterator;
import java.util.List;

/**
 * What is sent over one connection: the calls that have no reply yet, those that were written and behind them those that
 * are to be. One thread at a time writes, for all. While changes or many reads are under way, and each call has a thread
 * that waits for it, they are written in rows, as {@link Gathering} says.
 *
 * <p>It is plain state: it knows no socket, no thread and no clock. Whoever uses it holds the lock of its lane.
 */
final class Stream {
    static final int BUFFER_BYTES = 65_536;
    private static final int FIRST_BYTES = 8_192;
    /** So many queued calls are written at once: the server makes as many in a row. */
    private static final int ROW_CALLS = 64;
    /** While so many calls are under way, further ones gain by going together. */
    private static final int MANY_CALLS = 4;

    /** Whether a thread writes, or waits until the socket takes more. */
    private enum Writer { NONE, AT_WORK, STALLED }

    final Gathering gathering = new Gathering();
    private final ArrayDeque<Call> calls = new ArrayDeque<>();
    private ByteBuffer queued = ByteBuffer.allocateDirect(FIRST_BYTES);
    private int queuedCalls;
    private int queuedChanges;
    private int writtenChanges;
    private int unawaitedCalls;
    // What the writer has in hand, and how many bytes were handed to writers, that row included.
    private ByteBuffer row = ByteBuffer.allocateDirect(FIRST_BYTES).flip();
    private long handed;
    private Writer writer = Writer.NONE;
    private long lastUse;
    private volatile boolean hasEnded;

    Stream(long now) {
        lastUse = now;
    }

    // ---- calls

    /** Queues a call; returns whether this thread has to write. */
    boolean add(Call call, long now) {
        append(call, now);
        // Calls that nobody waits for are gathered while a reply is to come, behind which they are written.
        boolean isGathered = !call.isAwaited && isReplyToCome() && !isFull();
        return !isGathered && mustWrite();
    }

    /** Queues a call. */
    void append(Call call, long now) {
        lastUse = now;
        if (queued.remaining() < call.frame.length) {
            ByteBuffer longer = ByteBuffer.allocateDirect(2 * queued.capacity() + call.frame.length);
            queued = longer.put(queued.flip());
        }
        queued.put(call.frame);
        call.endsAt = handed + queued.position();
        queuedCalls++;
        queuedChanges += call.isChange ? 1 : 0;
        unawaitedCalls += call.isAwaited ? 0 : 1;
        calls.add(call);
        gathering.saw(calls.size());
    }

    int size() {
        return calls.size();
    }

    /** The oldest call that has no reply; null if there is none. */
    Call oldest() {
        return calls.peek();
    }

    boolean isReplyToCome() {
        return calls.size() > queuedCalls;
    }

    private boolean isFull() {
        return queuedCalls >= ROW_CALLS || queued.position() >= BUFFER_BYTES / 2;
    }

    /** Takes back a call of which nothing was handed to a writer; returns whether that was so. */
    boolean withdraw(Call call) {
        if (call.endsAt == Call.NOWHERE || call.endsAt <= handed || !calls.remove(call)) {
            return false;
        }
        unawaitedCalls -= call.isAwaited ? 0 : 1;
        List<Call> behind = new ArrayList<>();
        for (Iterator<Call> each = calls.iterator(); each.hasNext();) {
            Call other = each.next();
            if (other.endsAt > handed) {
                behind.add(other);
                unawaitedCalls -= other.isAwaited ? 0 : 1;
                each.remove();
            }
        }
        queued.clear();
        queuedCalls = 0;
        queuedChanges = 0;
        behind.forEach(other -> append(other, lastUse));
        return true;
    }

    // ---- writing

    /** Whether this thread has to write what is queued. If so, it is the writer from here on. */
    boolean mustWrite() {
        boolean must = writer == Writer.NONE && queuedCalls > 0 && !hasEnded && isDue();
        writer = must ? Writer.AT_WORK : writer;
        return must;
    }

    /** Whether what is queued is to be written now. */
    private boolean isDue() {
        return isFull() || unawaitedCalls > 0 || !isRowUnderWay() && gathering.isEnough(queuedCalls);
    }

    private boolean isRowUnderWay() {
        return writtenChanges > 0 || calls.size() - queuedCalls >= MANY_CALLS;
    }

    /** What the writer is to write next; null if nothing is, and then it is the writer no more. */
    ByteBuffer next() {
        if (!row.hasRemaining() && queuedCalls > 0 && !hasEnded && isDue()) {
            handed += queued.position();
            writtenChanges += queuedChanges;
            queuedCalls = 0;
            queuedChanges = 0;
            gathering.begin(calls.size());
            ByteBuffer full = queued;
            queued = row.clear();
            row = full.flip();
        }
        boolean goesOn = row.hasRemaining() && !hasEnded;
        writer = goesOn ? Writer.AT_WORK : Writer.NONE;
        return goesOn ? row : null;
    }

    /** The socket takes no more of the row before it is writable again. */
    void stall() {
        writer = Writer.STALLED;
    }

    /** The socket is writable: whether this thread has to write on. If so, it is the writer. */
    boolean resume() {
        boolean must = writer == Writer.STALLED && !hasEnded;
        writer = must ? Writer.AT_WORK : writer;
        return must;
    }

    // ---- replies

    /** Takes the oldest call, to which a reply came; null if none was written. */
    Call answered(long now) {
        if (!isReplyToCome()) {
            return null;
        }
        Call call = calls.poll();
        unawaitedCalls -= call.isAwaited ? 0 : 1;
        writtenChanges -= call.isChange ? 1 : 0;
        lastUse = now;
        return call;
    }

    /** The next row is to wait for the threads that are answered now, if they made a row and no other is under way. */
    void expectMore(List<Call> answered) {
        boolean wasRow = answered.size() >= MANY_CALLS || answered.stream().anyMatch(call -> call.isChange);
        if (wasRow && answered.stream().allMatch(call -> call.isAwaited) && unawaitedCalls == 0 && !isRowUnderWay()
            && !hasEnded) {
            gathering.expect(ROW_CALLS);
        }
    }

    /** What is expected is waited for no longer. Whether this thread has to write what was gathered. */
    boolean hasGathered() {
        gathering.giveUp();
        return mustWrite();
    }

    @Override
    public String toString() {
        return calls.size() + " calls, " + queuedCalls + " of them queued, writer " + writer + ", " + row.remaining() + " bytes in hand";
    }

    // ---- the end

    boolean isIdle(long now, long idleNanos) {
        return idleNanos > 0 && calls.isEmpty() && now - lastUse >= idleNanos;
    }

    boolean hasEnded() {
        return hasEnded;
    }

    /** How many bytes the socket may have taken. */
    private long mayBeGone() {
        // A writer at work may be anywhere in its row.
        return writer == Writer.AT_WORK ? handed : handed - row.remaining();
    }

    /** Nothing is written any more. The calls without a reply: those that may be made come first. */
    Left end() {
        hasEnded = true;
        gathering.giveUp();
        long gone = mayBeGone();
        List<Call> sent = new ArrayList<>();
        List<Call> kept = new ArrayList<>();
        for (Call call : calls) {
            // A request of which the last byte is missing is none.
            (call.endsAt <= gone ? sent : kept).add(call);
        }
        calls.clear();
        queued.clear();
        queuedCalls = 0;
        return new Left(sent, kept);
    }

    /** The calls of a connection that has ended: those that the server may have, and those that it can't have. */
    record Left(List<Call> sent, List<Call> kept) {
    }
}
