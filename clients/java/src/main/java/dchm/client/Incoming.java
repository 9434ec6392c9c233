package dchm.client;

import java.io.IOException;
import java.nio.ByteBuffer;
import java.nio.channels.ReadableByteChannel;
import java.nio.charset.StandardCharsets;
import java.util.List;

/** What was read of a connection and not yet taken: plain state. The thread that leads alone touches it. */
final class Incoming {
    private static final int SHOWN_BYTES = 40;
    private final ByteBuffer bytes;

    /** With room for so many bytes, at least those of a reply. */
    Incoming(int room) {
        bytes = ByteBuffer.allocateDirect(room);
    }

    /** Reads what is there; returns how many bytes, or -1 at the end. */
    int readFrom(ReadableByteChannel channel) throws IOException {
        return channel.read(bytes);
    }

    /** Takes the whole replies; returns what is wrong with the bytes behind them, null if nothing is. */
    String take(List<Wire.Reply> replies) {
        bytes.flip();
        String fault = cut(replies);
        bytes.compact();
        return fault;
    }

    private String cut(List<Wire.Reply> replies) {
        while (bytes.remaining() >= 2) {
            int length = bytes.getShort(bytes.position()) & 0xFFFF;
            if (length < 2 || length > Wire.REPLY_LIMIT) {
                return noReply();
            }
            if (bytes.remaining() < 2 + length) {
                return null;
            }
            byte[] body = new byte[length];
            bytes.get(bytes.position() + 2, body);
            Wire.Reply reply = Wire.reply(body);
            if (reply == null) {
                return noReply();
            }
            bytes.position(bytes.position() + 2 + length);
            replies.add(reply);
        }
        return null;
    }

    private String noReply() {
        byte[] first = new byte[Math.min(SHOWN_BYTES, bytes.remaining())];
        bytes.get(bytes.position(), first);
        String text = new String(first, StandardCharsets.ISO_8859_1);
        boolean isText = text.chars().allMatch(each -> each >= ' ' && each < 127 || each == '\r' || each == '\n');
        return "bytes that are no reply: " + (isText ? "\"" + text.lines().findFirst().orElse("") + "\""
            : java.util.HexFormat.ofDelimiter(" ").formatHex(first, 0, Math.min(first.length, 8)));
    }
}
