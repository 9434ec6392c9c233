package dchm.client;

import java.io.IOException;
import java.io.UncheckedIOException;
import java.nio.ByteBuffer;
import java.nio.channels.ReadableByteChannel;
import java.util.ArrayDeque;
import java.util.ArrayList;
import java.util.HashMap;
import java.util.List;
import java.util.Map;
import java.util.SplittableRandom;

/**
 * What is around a {@link Lane}: a server, a wire, a clock, threads that write, and what may be said of each call. It
 * plays the events of one connection after the other, and holds what a server got against what calls are told.
 */
final class LaneWorld {
    /** What the lane does that it must not. */
    static final class Wrong extends RuntimeException {
        private static final long serialVersionUID = 1;

        Wrong(String what) {
            super(what);
        }
    }

    private static final int READ_BYTES = 8_192;

    /** A call, and what is known of it. */
    final class Known {
        final int number;
        final Call call;
        int got;
        boolean isTold;
        // The connection on which the server made its last reply.
        Line answeredOn;

        Known(int number, boolean isChange, boolean isAwaited) {
            this.number = number;
            byte[] key = Wire.key("k" + number + "x".repeat(random.nextInt(4)));
            byte[] frame = isChange ? Wire.request(Wire.MERGE, key, Fn.SUM, (long) number) : Wire.request(Wire.GET, key);
            long due = now + timeout;
            call = isAwaited ? Call.awaited(frame, due) : Call.ahead(frame, due, null);
        }
    }

    /** A connection: the bytes on their way to the server, and those that it has sent. */
    final class Line {
        final Stream stream;
        final Incoming in = new Incoming(READ_BYTES);
        final ArrayDeque<Byte> toServer = new ArrayDeque<>();
        final ArrayDeque<Byte> toClient = new ArrayDeque<>();
        final List<Byte> unread = new ArrayList<>();
        // The thread that writes: whether there is one, and the row that it has in hand.
        boolean hasWriter;
        ByteBuffer row;
        // How many bytes of it the socket took, and how many were handed to threads that write.
        long written;
        long handed;
        int requests;
        int replies;
        int lastNumber = -1;
        boolean isOver;

        Line(Stream stream) {
            this.stream = stream;
        }

        /** What of the stream the server may get: of one that has ended, no more than was written before. */
        long mayBeGone() {
            return stream.hasEnded() && !hasWriter ? written : handed;
        }

        void starts() {
            if (hasWriter) {
                throw new Wrong("two threads write");
            }
            hasWriter = true;
        }
    }

    final SplittableRandom random;
    final Lane lane;
    final long timeout;
    final long idle;
    final int inFlight;
    final List<Known> calls = new ArrayList<>();
    private final Map<String, Known> byFrame = new HashMap<>();
    final List<Line> ended = new ArrayList<>();
    Line line;
    long now;
    private long lastUse;
    boolean hasThread;
    boolean isClosed;
    private Lane.Step step = Lane.Step.END;

    LaneWorld(long seed) {
        random = new SplittableRandom(seed);
        inFlight = 1 + random.nextInt(5);
        timeout = 1_000_000L * (20 + random.nextInt(300));
        idle = random.nextInt(3) == 0 ? 0 : 1_000_000L * (5 + random.nextInt(500));
        lane = new Lane(new Limits("the server", inFlight, 1 + random.nextInt(6), 1_000_000L * (5 + random.nextInt(200)),
            idle));
    }

    // ---- calls

    void begin(boolean isChange, boolean isAwaited) {
        Known known = new Known(calls.size(), isChange, isAwaited);
        calls.add(known);
        byFrame.put(textOf(known.call.frame), known);
        if (lane.begin(known.call, now)) {
            line.starts();
        }
        lastUse = now;
    }

    private static String textOf(byte[] frame) {
        return new String(frame, java.nio.charset.StandardCharsets.ISO_8859_1);
    }

    void giveUp() {
        if (lane.giveUp(calls.get(random.nextInt(calls.size())).call, "interrupted", now)) {
            line.starts();
        }
    }

    // ---- the thread of the lane

    void stepThread() {
        hasThread |= lane.needsConnection();
        if (!hasThread || lane.isConnecting() || line != null) {
            return;
        }
        step = lane.step(now);
        hasThread = step != Lane.Step.END;
    }

    void connects() {
        if (!lane.isConnecting()) {
            return;
        }
        if (line != null) {
            throw new Wrong("a second connection");
        }
        Stream stream = lane.connected(now);
        line = new Line(stream);
        lastUse = now;
        if (stream.mustWrite()) {
            line.starts();
        }
    }

    // ---- writing

    /** The thread that writes goes on: the socket takes some of its row, or all. */
    void write() {
        writeOf(line);
        ended.forEach(this::writeOf);
    }

    private void writeOf(Line of) {
        if (of == null || !of.hasWriter) {
            return;
        }
        if (of.row == null) {
            of.row = of.stream.next();
            of.hasWriter = of.row != null;
            of.handed = of.row == null ? of.handed : of.written + of.row.remaining();
            return;
        }
        int count = random.nextInt(of.row.remaining() + 1);
        for (int i = 0; i < count; i++) {
            of.toServer.add(of.row.get());
            of.written++;
        }
        if (of.row.hasRemaining()) {
            of.stream.stall();
            of.hasWriter = false;
        }
        of.row = null;
    }

    /** Somebody takes the socket for writable, rightly or not. */
    void resume() {
        if (line != null && line.stream.resume()) {
            line.starts();
        }
    }

    void gathered() {
        if (line != null && line.stream.hasGathered()) {
            line.starts();
        }
    }

    // ---- the server

    /** The server takes some bytes of the line. */
    void serve(Line of, int most) {
        for (int i = 0; i < most && !of.toServer.isEmpty(); i++) {
            of.unread.add(of.toServer.poll());
            int length = of.unread.size() < 2 ? Integer.MAX_VALUE : (of.unread.get(0) & 0xFF) << 8 | of.unread.get(1) & 0xFF;
            if (length != Integer.MAX_VALUE && of.unread.size() == 2 + length) {
                byte[] frame = new byte[of.unread.size()];
                for (int at = 0; at < frame.length; at++) {
                    frame[at] = of.unread.get(at);
                }
                of.unread.clear();
                got(of, frame);
            }
        }
    }

    private void got(Line of, byte[] frame) {
        of.requests++;
        if (of.requests - of.replies > Math.max(1, inFlight)) {
            throw new Wrong("more requests are under way than may be: " + (of.requests - of.replies));
        }
        if (of.requests == 1) {
            reply(of, ByteBuffer.wrap(Peer.NOW_ABSENT));
            return;
        }
        Known known = byFrame.get(textOf(frame));
        if (known == null) {
            throw new Wrong("a torn request");
        }
        known.got++;
        boolean mayComeAgain = !known.call.isChange && known.call.isAwaited;
        if (known.got > (mayComeAgain ? 2 : 1)) {
            throw new Wrong("call " + known.number + " came " + known.got + " times");
        }
        if (known.isTold && known.call.isChange && told(known) instanceof NotMadeException) {
            throw new Wrong("call " + known.number + " came, and was told that it was not made");
        }
        if (!known.call.isRepeated && known.number < of.lastNumber) {
            throw new Wrong("call " + known.number + " came behind call " + of.lastNumber);
        }
        of.lastNumber = known.call.isRepeated ? of.lastNumber : known.number;
        known.answeredOn = of;
        reply(of, ByteBuffer.allocate(12).putShort((short) 10).put((byte) Wire.NOW).put((byte) 1).putLong(known.number).flip());
    }

    private void reply(Line of, ByteBuffer frame) {
        while (frame.hasRemaining()) {
            of.toClient.add(frame.get());
        }
    }

    /** The client reads some bytes, or all. */
    void read(int most) {
        if (line == null || line.toClient.isEmpty()) {
            return;
        }
        byte[] bytes = new byte[Math.min(most, line.toClient.size())];
        for (int i = 0; i < bytes.length; i++) {
            bytes[i] = line.toClient.poll();
        }
        cameBytes(bytes);
    }

    void cameBytes(byte[] bytes) {
        Line from = line;
        List<Wire.Reply> replies = new ArrayList<>();
        try {
            from.in.readFrom(channel(bytes));
        } catch (IOException error) {
            throw new UncheckedIOException(error);
        }
        String fault = from.in.take(replies);
        from.replies += replies.size();
        lastUse = replies.isEmpty() ? lastUse : now;
        List<Call> answered = lane.came(from.stream, replies, fault, now);
        if (random.nextBoolean() && !from.stream.hasEnded()) {
            from.stream.expectMore(answered);
        }
        if (!from.stream.hasEnded() && from.stream.hasGathered()) {
            from.starts();
        }
    }

    private static ReadableByteChannel channel(byte[] bytes) {
        ByteBuffer from = ByteBuffer.wrap(bytes);
        return new ReadableByteChannel() {
            @Override
            public int read(ByteBuffer to) {
                int count = from.remaining();
                to.put(from);
                return count;
            }

            @Override
            public boolean isOpen() {
                return true;
            }

            @Override
            public void close() {
            }
        };
    }

    // ---- time and the end

    void later(long nanos) {
        now += nanos;
        lane.tick(now);
        for (Known known : calls) {
            if (known.call.due <= now && !known.call.isDone()) {
                throw new Wrong("call " + known.number + " is overdue and goes on");
            }
        }
    }

    void close() {
        isClosed = true;
        lane.close();
        for (Known known : calls) {
            if (!known.call.isDone()) {
                throw new Wrong("call " + known.number + " goes on after the close");
            }
        }
    }

    /** Holds what has changed against what may be. */
    void check() {
        for (Call call : lane.takeEnded()) {
            Known known = byFrame.get(textOf(call.frame));
            if (known.isTold) {
                throw new Wrong("call " + known.number + " ended twice");
            }
            known.isTold = true;
            checkTold(known);
        }
        Lane.News news = lane.takeNews();
        if (news != null && !news.isUp() && "it was idle".equals(news.why().getMessage()) && now - lastUse < idle) {
            throw new Wrong("it was idle for " + (now - lastUse) + " of " + idle);
        }
        if (line != null && line.stream.hasEnded()) {
            ended.add(line);
            line.isOver = true;
            line = null;
        }
    }

    private static Object told(Known known) {
        try {
            return known.call.reply();
        } catch (DchmException error) {
            return error;
        }
    }

    private void checkTold(Known known) {
        Object told = told(known);
        String call = "call " + known.number;
        if (told instanceof Wire.Reply reply) {
            boolean isOwn = known.answeredOn != null && Long.valueOf(known.number).equals(reply.value());
            if (!isOwn && reply.status() < Wire.REFUSED) {
                throw new Wrong(call + " is told the reply of another: " + reply);
            }
        } else if (told instanceof OutcomeOpenException) {
            if (known.got == 0 && !mayBeOnItsWay(known.call)) {
                throw new Wrong(call + " is open, and no server can have it: " + told);
            }
        } else if (known.call.isChange && known.got > 0) {
            throw new Wrong(call + " was made, and is told otherwise: " + told);
        }
    }

    /** Whether the server may have it, or may get it yet. */
    private boolean mayBeOnItsWay(Call call) {
        List<Line> lines = new ArrayList<>(ended);
        if (line != null) {
            lines.add(line);
        }
        return lines.stream().anyMatch(each -> call.endsAt <= each.mayBeGone());
    }
}
