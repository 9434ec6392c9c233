package dchm.client;

import java.util.concurrent.ForkJoinPool;
import java.util.concurrent.ForkJoinWorkerThread;
import java.util.concurrent.locks.LockSupport;

/** A request from its begin to its end, which is a reply or an exception. */
final class Call {
    /** Who is told that a call has ended. */
    interface Owner {
        void ended();
    }

    /** Of a call whose bytes are in no stream yet. */
    static final long NOWHERE = Long.MAX_VALUE;
    private static final byte[] NO_FRAME = {};
    final byte[] frame;
    /** The moment of the clock by which it ends. */
    final long due;
    /** Whether a thread waits for it; else its end is told to a callback. */
    final boolean isAwaited;
    final boolean isChange;
    private final Owner owner;
    // Kept by the lock of its lane: where in the stream its last byte ends, and whether it was sent before.
    long endsAt = NOWHERE;
    boolean isRepeated;
    private volatile Object outcome;
    private volatile Thread waiter;

    private Call(byte[] frame, long due, boolean isAwaited, Owner owner) {
        this.frame = frame;
        this.due = due;
        this.isAwaited = isAwaited;
        this.owner = owner;
        isChange = frame.length > 0 && Wire.isChange(frame);
    }

    /** A call for which a thread waits. */
    static Call awaited(byte[] frame, long due) {
        return new Call(frame, due, true, null);
    }

    /** A call for which no thread waits before the next is made; who is told once it has ended may be null. */
    static Call ahead(byte[] frame, long due, Owner owner) {
        return new Call(frame, due, false, owner);
    }

    /** A call that sends nothing, and ends once there is a connection. */
    static Call opener(long due) {
        return new Call(NO_FRAME, due, true, null);
    }

    boolean isOpener() {
        return frame.length == 0;
    }

    boolean isOverdue(long now) {
        return now - due >= 0;
    }

    boolean isDone() {
        return outcome != null;
    }

    /** Ends the call, which hasn't ended, by a reply or an exception. */
    void end(Object how) {
        if (outcome != null) {
            throw new IllegalStateException("a call ends once: " + outcome + ", then " + how);
        }
        outcome = how;
    }

    /** Tells that it has ended. */
    void tell() {
        Thread thread = waiter;
        if (thread != null) {
            LockSupport.unpark(thread);
        }
        if (owner != null) {
            owner.ended();
        }
    }

    /** From here on this thread is woken once the call has ended. */
    void isWaitedForHere() {
        waiter = Thread.currentThread();
    }

    /** Waits so long at most, until it has ended or the thread is interrupted; perhaps less. */
    void park(long nanos) {
        if (!(Thread.currentThread() instanceof ForkJoinWorkerThread)) {
            LockSupport.parkNanos(this, nanos);
            return;
        }
        try {
            // Others go on in the place of a pool's thread that waits.
            ForkJoinPool.managedBlock(new ForkJoinPool.ManagedBlocker() {
                @Override
                public boolean block() {
                    LockSupport.parkNanos(Call.this, nanos);
                    return true;
                }

                @Override
                public boolean isReleasable() {
                    return isDone();
                }
            });
        } catch (InterruptedException error) {
            Thread.currentThread().interrupt();
        }
    }

    /** The reply of a call that has ended. */
    Wire.Reply reply() {
        if (outcome instanceof DchmException end) {
            throw end.here();
        }
        return (Wire.Reply) outcome;
    }

    // ---- what is said of a call that has no reply

    private String named(String what) {
        if (isOpener()) {
            return what;
        }
        String key = Wire.keyOf(frame);
        return Wire.methodOf(frame) + (Wire.isOfKey(frame) ? " of \"" + shortened(key) + "\"" : "") + ": " + what;
    }

    private static String shortened(String key) {
        return key.length() <= 100 ? key : key.substring(0, 100) + "..";
    }

    /** The end of a call of which the server has nothing, or that changes nothing. */
    NotMadeException notMade(String what, Throwable why) {
        return new NotMadeException(named(what), why);
    }

    /** The end of a call that was sent and has no reply. */
    DchmException lost(String what, Throwable why) {
        return isChange ? new OutcomeOpenException(named(what), why, frame) : notMade(what, why);
    }
}
