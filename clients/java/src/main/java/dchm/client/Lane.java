package dchm.client;

import java.io.IOException;
import java.util.ArrayDeque;
import java.util.ArrayList;
import java.util.List;
import java.util.concurrent.TimeUnit;
import java.util.concurrent.TimeoutException;

/**
 * The calls of one lane from their begin to their end: those that wait for a connection or a place, and those of the
 * connection, which is opened when it is needed, by one attempt for all that wait, and ended when it is idle.
 *
 * <p>It is plain state: it knows no socket, no thread and no clock. It is told what happens, each time under the lock of
 * the lane, and says what is to be done. Each call ends once: by its reply, by its deadline, or with what is true of it
 * when the connection is lost, it is given up, or the client is closed.
 */
final class Lane {
    /** What the thread of the lane is to do: connect, wait for the next moment, or end. */
    enum Step { CONNECT, WAIT, END }

    private enum Phase { APART, CONNECTING, PROBING, UP, CLOSED }

    /** After an attempt that failed the next one waits, twice as long each time. */
    private static final long FIRST_PAUSE_NANOS = 1_000_000, MOST_PAUSE_NANOS = 100_000_000;
    private static final Wire.Reply OPENED = new Wire.Reply(Wire.NOW, null);
    private final Limits limits;
    private final ArrayDeque<Call> waiting = new ArrayDeque<>();
    private int waitingAhead;
    private List<Call> ended = new ArrayList<>();
    private Phase phase = Phase.APART;
    private Stream stream;
    private Call probe;
    private long attemptDue;
    private long pauseNanos = FIRST_PAUSE_NANOS;
    private long notBefore;
    private boolean hasFailed;
    private News news;

    /** What a listener is told of the connection: that there is one, or why there is none any more. */
    record News(boolean isUp, Throwable why) {
    }

    Lane(Limits limits) {
        this.limits = limits;
    }

    /** The calls that have ended since this was asked last, and are to be told. */
    List<Call> takeEnded() {
        if (ended.isEmpty()) {
            return List.of();
        }
        List<Call> taken = ended;
        ended = new ArrayList<>();
        return taken;
    }

    /** What happened to the connection since this was asked last; null if nothing did. */
    News takeNews() {
        News taken = news;
        news = null;
        return taken;
    }

    private void end(Call call, Object how) {
        call.end(how);
        ended.add(call);
    }

    // ---- calls

    /** A call begins. Whether this thread has to write. */
    boolean begin(Call call, long now) {
        if (phase == Phase.CLOSED) {
            end(call, call.notMade("the client was closed before it was sent", null));
        } else if (phase == Phase.UP && call.isOpener()) {
            end(call, OPENED);
        } else if (phase == Phase.UP && waiting.isEmpty() && stream.size() < limits.inFlight()) {
            return stream.add(call, now);
        } else if (!call.isAwaited && waitingAhead >= limits.waiting()) {
            end(call, call.notMade("too many calls wait to be sent: " + waitingAhead, null));
        } else {
            waiting.add(call);
            waitingAhead += call.isAwaited ? 0 : 1;
        }
        return false;
    }

    private Call polled() {
        Call call = waiting.poll();
        waitingAhead -= call.isAwaited ? 0 : 1;
        return call;
    }

    private void sendWaiting(long now) {
        while (!waiting.isEmpty() && stream.size() < limits.inFlight()) {
            Call call = polled();
            if (call.isOpener()) {
                end(call, OPENED);
            } else {
                stream.append(call, now);
            }
        }
    }

    /** The thread that waits for a call, or who has its future, waits no longer. Whether this thread has to write. */
    boolean giveUp(Call call, String why, long now) {
        if (call.isDone()) {
            return false;
        }
        boolean isQueued = stream != null && stream.withdraw(call);
        if (waiting.remove(call)) {
            waitingAhead -= call.isAwaited ? 0 : 1;
            end(call, call.notMade(why + " before it was sent", null));
        } else if (isQueued) {
            end(call, call.notMade(why + " before it was sent", null));
            // Its place is free.
            sendWaiting(now);
            return stream.mustWrite();
        } else {
            // It keeps its place until its reply comes.
            end(call, call.lost(why + " after it was sent", null));
        }
        return false;
    }

    // ---- connecting

    /** What the thread of the lane is to do now. */
    Step step(long now) {
        if (phase == Phase.CLOSED || waiting.isEmpty()) {
            return Step.END;
        }
        if (hasFailed && now - notBefore < 0) {
            return Step.WAIT;
        }
        phase = Phase.CONNECTING;
        attemptDue = now + limits.connectNanos();
        return Step.CONNECT;
    }

    /** Whether somebody has to connect. */
    boolean needsConnection() {
        return phase == Phase.APART && !waiting.isEmpty();
    }

    boolean isConnecting() {
        return phase == Phase.CONNECTING;
    }

    /** The socket is connected. The stream, with the request whose reply shows that the server serves it; or null. */
    Stream connected(long now) {
        if (phase != Phase.CONNECTING) {
            return null;
        }
        Stream made = new Stream(now);
        probe = Call.awaited(Wire.request(Wire.GET, new byte[0]), attemptDue);
        made.append(probe, now);
        stream = made;
        phase = Phase.PROBING;
        return made;
    }

    /** The attempt has failed: all that wait are told. */
    void failed(Throwable why, long now) {
        if (phase != Phase.CONNECTING) {
            return;
        }
        String message = why instanceof TimeoutException ? "the server at " + limits.place() + " takes no connection within "
            + millis(limits.connectNanos()) : "no server at " + limits.place() + ": " + why.getMessage();
        refuse(message, why, now);
    }

    /** Nobody can connect, as there are no more threads: all that wait are told. */
    void unable(Throwable why, long now) {
        if (phase == Phase.APART) {
            refuse("no thread to connect to " + limits.place() + ": " + why, why, now);
        }
    }

    private static String millis(long nanos) {
        return TimeUnit.NANOSECONDS.toMillis(nanos) + " ms";
    }

    private void refuse(String message, Throwable why, long now) {
        phase = Phase.APART;
        hasFailed = true;
        notBefore = now + pauseNanos;
        pauseNanos = Math.min(2 * pauseNanos, MOST_PAUSE_NANOS);
        while (!waiting.isEmpty()) {
            Call call = polled();
            end(call, call.notMade(message, why));
        }
    }

    private void probed(Wire.Reply reply, long now) {
        if (reply.status() == Wire.NOW) {
            phase = Phase.UP;
            news = new News(true, null);
            hasFailed = false;
            pauseNanos = FIRST_PAUSE_NANOS;
            return;
        }
        int number = reply.status() - Wire.REFUSED;
        lost(stream, new RefusedProbe("refused " + number + " " + Wire.refusalName(number)), now);
    }

    private String notServed(Throwable why) {
        String server = "the server at " + limits.place();
        if (why instanceof TimeoutException) {
            return server + " didn't serve the connection within " + millis(limits.connectNanos());
        }
        if (why instanceof RefusedProbe) {
            return server + " isn't ready: " + why.getMessage();
        }
        if (why instanceof StrangeReply) {
            return "what listens at " + limits.place() + " is no server of this protocol: it sent " + why.getMessage();
        }
        return server + " ended the connection; it may serve no more of them (--connections): " + why.getMessage();
    }

    private static final class RefusedProbe extends IOException {
        private static final long serialVersionUID = 1;

        RefusedProbe(String message) {
            super(message);
        }
    }

    /** What came is not what the protocol has. */
    static final class StrangeReply extends IOException {
        private static final long serialVersionUID = 1;

        StrangeReply(String message) {
            super(message);
        }
    }

    // ---- replies

    /** Replies came, and then perhaps bytes that are none. The calls that they answer, of a stream that goes on. */
    List<Call> came(Stream from, List<Wire.Reply> replies, String fault, long now) {
        List<Call> answered = new ArrayList<>(replies.size());
        String wrong = null;
        for (int i = 0; i < replies.size() && wrong == null && from == stream; i++) {
            wrong = take(replies.get(i), answered, now);
        }
        if (from == stream && (wrong != null || fault != null)) {
            lost(from, new StrangeReply(wrong != null ? wrong : fault), now);
        }
        if (from == stream && phase == Phase.UP) {
            sendWaiting(now);
        }
        return answered;
    }

    /** Takes a reply to the oldest call; returns what is wrong with it, null if nothing is. */
    private String take(Wire.Reply reply, List<Call> answered, long now) {
        Call call = stream.isReplyToCome() ? stream.oldest() : null;
        if (call == null) {
            return "a reply to no request";
        }
        if (!Wire.fits(call.frame, reply)) {
            return "a reply of another method than " + Wire.methodOf(call.frame) + ": " + reply;
        }
        stream.answered(now);
        if (call == probe) {
            probe = null;
            probed(reply, now);
            return null;
        }
        answered.add(call);
        // One that was given up has ended.
        if (!call.isDone()) {
            end(call, reply);
        }
        return null;
    }

    // ---- time

    /** It is later. */
    void tick(long now) {
        while (!waiting.isEmpty() && waiting.peek().isOverdue(now)) {
            Call call = polled();
            end(call, call.notMade(phase == Phase.UP ? "it found no place in time, so it was not sent"
                : "no connection in time to " + limits.place(), new TimeoutException()));
        }
        if (phase == Phase.CONNECTING && now - attemptDue >= 0) {
            failed(new TimeoutException("no connection in time"), now);
        }
        if (stream == null) {
            return;
        }
        Call oldest = stream.oldest();
        if (oldest != null && oldest.isOverdue(now)) {
            lost(stream, new TimeoutException("no reply came in time"), now);
        } else if (stream.isIdle(now, limits.idleNanos()) && waiting.isEmpty()) {
            lost(stream, new IOException("it was idle"), now);
        }
    }

    /** How long until it has to be told that it is later, and at most so long. */
    long nanosLeft(long now, long most) {
        long left = most;
        if (!waiting.isEmpty()) {
            left = Math.min(left, waiting.peek().due - now);
        }
        if (phase == Phase.CONNECTING) {
            left = Math.min(left, attemptDue - now);
        } else if (phase == Phase.APART && hasFailed) {
            left = Math.min(left, notBefore - now);
        }
        if (stream != null && stream.oldest() != null) {
            left = Math.min(left, stream.oldest().due - now);
        }
        return Math.max(left, 0);
    }

    @Override
    public String toString() {
        return phase + ", " + waiting.size() + " wait, " + stream;
    }

    // ---- the end

    /** A stream's connection has ended. */
    void lost(Stream from, Throwable why, long now) {
        if (from != stream || stream == null) {
            return;
        }
        boolean wasUp = phase == Phase.UP;
        Stream.Left left = stream.end();
        stream = null;
        probe = null;
        if (!wasUp) {
            refuse(notServed(why), why, now);
            return;
        }
        phase = Phase.APART;
        news = new News(false, why);
        List<Call> again = new ArrayList<>();
        left.sent().forEach(call -> lose(call, true, why, now, again));
        left.kept().forEach(call -> lose(call, false, why, now, again));
        for (int i = again.size() - 1; i >= 0; i--) {
            waiting.addFirst(again.get(i));
        }
    }

    /** A read for which a thread waits is sent once more; each other call ends. */
    private void lose(Call call, boolean wasSent, Throwable why, long now, List<Call> again) {
        if (call.isDone()) {
            return;
        }
        if (call.isAwaited && !call.isChange && !call.isRepeated && !call.isOverdue(now)) {
            call.isRepeated = true;
            call.endsAt = Call.NOWHERE;
            again.add(call);
        } else {
            end(call, ending(call, wasSent, why));
        }
    }

    private static DchmException ending(Call call, boolean wasSent, Throwable why) {
        return wasSent ? call.lost("it was sent, and no reply came: " + why.getMessage(), why)
            : call.notMade("the connection ended before it was sent: " + why.getMessage(), why);
    }

    /** The client is closed: nothing is sent any more, and each call ends. */
    void close() {
        if (phase == Phase.CLOSED) {
            return;
        }
        phase = Phase.CLOSED;
        IOException why = new IOException("the client was closed");
        while (!waiting.isEmpty()) {
            Call call = polled();
            end(call, call.notMade("the client was closed before it was sent", why));
        }
        if (stream != null) {
            Stream.Left left = stream.end();
            stream = null;
            left.sent().stream().filter(call -> call != probe && !call.isDone()).forEach(call -> end(call, ending(call, true, why)));
            left.kept().stream().filter(call -> call != probe && !call.isDone()).forEach(call -> end(call, ending(call, false, why)));
        }
    }
}
