package dchm.client;

import java.nio.ByteBuffer;
import java.nio.charset.StandardCharsets;
import java.util.Arrays;
import java.util.Map;

/** The bytes of requests and replies, as docs/PROTOCOL.md has them. */
final class Wire {
    /** The methods that this client sends, by their byte. */
    static final int GET = 1, CONTAINS_KEY = 3, PUT = 16, PUT_IF_ABSENT = 17, REMOVE = 18, REMOVE_IF = 19,
        REPLACE = 20, REPLACE_IF = 21, COMPUTE = 22, COMPUTE_IF_ABSENT = 23, COMPUTE_IF_PRESENT = 24, MERGE = 25,
        COUNT = 32, REDUCE = 33, SEARCH = 34;
    /** Statuses of replies. A refusal is REFUSED and its number. */
    static final int WAS = 0, NOW = 1, DID = 2, FAULT = 3, REFUSED = 0x80;
    static final int WRONG_KIND = 1, TOO_LONG = 2;
    static final int NO_MEMORY = 7, FAILED = 9;
    static final int KEY_LIMIT = 4095, TEXT_LIMIT = 4096;
    /** The bytes of the longest reply behind its length: a status, a kind, and a text with its length. */
    static final int REPLY_LIMIT = 4 + TEXT_LIMIT;
    /** The argument of a function that needs none. */
    static final Object ABSENT = new Object();
    private static final int KIND_ABSENT = 0, KIND_NUMBER = 1, KIND_TEXT = 2;
    private static final int NO_FUNCTION = 0;
    /** Where a key begins in a frame: behind the frame's length, the method and the key's length. */
    private static final int KEY_START = 5;
    private static final byte[] ABSENT_BYTES = {KIND_ABSENT};
    private static final Map<Integer, String> METHODS = Map.ofEntries(Map.entry(GET, "get"),
        Map.entry(CONTAINS_KEY, "containsKey"), Map.entry(PUT, "put"), Map.entry(PUT_IF_ABSENT, "putIfAbsent"),
        Map.entry(REMOVE, "remove"), Map.entry(REMOVE_IF, "remove"), Map.entry(REPLACE, "replace"),
        Map.entry(REPLACE_IF, "replace"), Map.entry(COMPUTE, "compute"), Map.entry(COMPUTE_IF_ABSENT, "computeIfAbsent"),
        Map.entry(COMPUTE_IF_PRESENT, "computeIfPresent"), Map.entry(MERGE, "merge"), Map.entry(COUNT, "mappingCount"),
        Map.entry(REDUCE, "reduceToLong"), Map.entry(SEARCH, "search"));
    private static final Map<Integer, String> REFUSALS = Map.of(1, "NullValue", 2, "KeyTooLong", 3, "ValueTooLong",
        4, "UnknownMethod", 5, "UnknownFunction", 6, "BadFrame", NO_MEMORY, "NoMemory", FAILED, "Failed",
        10, "TicketsSpent", 18, "NotText");

    private Wire() {
    }

    static String refusalName(int number) {
        return REFUSALS.getOrDefault(number, "(unknown)");
    }

    // ---- what a server can hold

    /** The UTF-8 of a text, or null if it has none, as with a lone surrogate. */
    private static byte[] utf8(String text) {
        for (int i = 0; i < text.length(); i++) {
            if (Character.isSurrogate(text.charAt(i))) {
                if (!Character.isSurrogatePair(text.charAt(i), i + 1 < text.length() ? text.charAt(i + 1) : 0)) {
                    return null;
                }
                i++;
            }
        }
        return text.getBytes(StandardCharsets.UTF_8);
    }

    /** The bytes of a key; null if no server can have it, so that a look-up of it finds nothing. */
    static byte[] keyOrNull(Object key) {
        if (key == null) {
            throw new NullPointerException("a key is null");
        }
        byte[] bytes = key instanceof String text ? utf8(text) : null;
        return bytes == null || bytes.length > KEY_LIMIT ? null : bytes;
    }

    /** The bytes of a key that a change is to map. */
    static byte[] key(Object key) {
        byte[] bytes = keyOrNull(key);
        if (bytes == null) {
            throw new IllegalArgumentException("a key has at most " + KEY_LIMIT
                + " bytes of UTF-8, and no surrogate without its other half");
        }
        return bytes;
    }

    /** Whether a server can have this value. */
    static boolean isHoldable(Object value) {
        if (value instanceof Long) {
            return true;
        }
        byte[] bytes = value instanceof String text ? utf8(text) : null;
        return bytes != null && bytes.length <= TEXT_LIMIT;
    }

    /** Refuses a value that is of another class, or that no server can hold. */
    static void requireHoldable(Class<?> kind, Object value) {
        valueBytes(checked(kind, value));
    }

    /** The value, if it is one of the class. */
    static <V> V checked(Class<V> kind, Object value) {
        if (kind != Object.class && value != null && !kind.isInstance(value)) {
            boolean isNumber = kind == Long.class && value instanceof Number;
            throw new ClassCastException("a value of this map is a " + kind.getSimpleName() + ", not "
                + value.getClass().getName() + (isNumber ? ": write 5L in place of 5" : ""));
        }
        @SuppressWarnings("unchecked")
        V same = (V) value;
        return same;
    }

    /** The value of a reply, if it is one of the class. */
    static <V> V told(Class<V> kind, Object value) {
        if (value != null && !kind.isInstance(value)) {
            throw new ClassCastException("the call was made, and its reply has a " + value.getClass().getSimpleName()
                + " where this map has a " + kind.getSimpleName());
        }
        return kind.cast(value);
    }

    private static byte[] valueBytes(Object value) {
        if (value == ABSENT) {
            return ABSENT_BYTES;
        }
        if (value == null) {
            throw new NullPointerException("a value is null");
        }
        if (value instanceof Long number) {
            return ByteBuffer.allocate(9).put((byte) KIND_NUMBER).putLong(number).array();
        }
        if (!(value instanceof String text)) {
            throw new ClassCastException("a value is a Long or a String, not " + value.getClass().getName()
                + (value instanceof Number ? ": write 5L in place of 5" : ""));
        }
        byte[] bytes = utf8(text);
        if (bytes == null || bytes.length > TEXT_LIMIT) {
            throw new IllegalArgumentException("a text has at most " + TEXT_LIMIT
                + " bytes of UTF-8, and no surrogate without its other half");
        }
        return ByteBuffer.allocate(3 + bytes.length).put((byte) KIND_TEXT).putShort((short) bytes.length).put(bytes)
            .array();
    }

    // ---- requests

    /** The frame of a method of a key that takes no function. */
    static byte[] request(int method, byte[] key, Object... values) {
        return request(method, key, NO_FUNCTION, values);
    }

    /** The frame of a method of a key with a function. */
    static byte[] request(int method, byte[] key, Fn<?> function, Object... values) {
        return request(method, key, function.number, values);
    }

    private static byte[] request(int method, byte[] key, int function, Object... values) {
        byte[][] bytes = new byte[values.length][];
        int length = 3 + key.length + (function == NO_FUNCTION ? 0 : 1);
        for (int i = 0; i < values.length; i++) {
            bytes[i] = valueBytes(values[i]);
            length += bytes[i].length;
        }
        ByteBuffer frame = ByteBuffer.allocate(2 + length);
        frame.putShort((short) length).put((byte) method).putShort((short) key.length).put(key);
        if (function != NO_FUNCTION) {
            frame.put((byte) function);
        }
        for (byte[] value : bytes) {
            frame.put(value);
        }
        return frame.array();
    }

    static byte[] count() {
        return new byte[] {0, 1, COUNT};
    }

    static byte[] reduce(Fn<Long> function, long threshold) {
        return ByteBuffer.allocate(12).putShort((short) 10).put((byte) REDUCE).put((byte) function.number)
            .putLong(threshold).array();
    }

    static byte[] search(long threshold, Object value) {
        byte[] bytes = valueBytes(value);
        return ByteBuffer.allocate(11 + bytes.length).putShort((short) (9 + bytes.length)).put((byte) SEARCH)
            .putLong(threshold).put(bytes).array();
    }

    /** Whether the request may change the map, so that its outcome can be open. */
    static boolean isChange(byte[] frame) {
        return frame[2] >= PUT && frame[2] <= MERGE;
    }

    /** The name of the request's method. */
    static String methodOf(byte[] frame) {
        return METHODS.getOrDefault((int) frame[2], "method " + frame[2]);
    }

    /** Whether the request is one of a key, and not of the whole map. */
    static boolean isOfKey(byte[] frame) {
        return frame[2] < COUNT;
    }

    /** The bytes of the request's key; none for a method of the whole map. */
    static byte[] keyBytesOf(byte[] frame) {
        if (frame.length < KEY_START || !isOfKey(frame)) {
            return new byte[0];
        }
        int length = (frame[KEY_START - 2] & 0xFF) << 8 | frame[KEY_START - 1] & 0xFF;
        return Arrays.copyOfRange(frame, KEY_START, Math.min(KEY_START + length, frame.length));
    }

    /** The key of the request; empty for a method of the whole map. */
    static String keyOf(byte[] frame) {
        return new String(keyBytesOf(frame), StandardCharsets.UTF_8);
    }

    // ---- replies

    /** A reply: its status, and a Long, a String or null. */
    record Reply(int status, Object value) {
        boolean isDone() {
            return value.equals(1L);
        }
    }

    /** Whether the reply can be one to the request. */
    static boolean fits(byte[] frame, Reply reply) {
        int status = reply.status();
        if (status > REFUSED) {
            return true;
        }
        return switch (frame[2]) {
            case GET -> status == NOW;
            case CONTAINS_KEY, REMOVE_IF, REPLACE_IF -> status == DID;
            case PUT, PUT_IF_ABSENT, REMOVE, REPLACE -> status == WAS;
            case COMPUTE, COMPUTE_IF_ABSENT, COMPUTE_IF_PRESENT, MERGE -> status == NOW || status == FAULT;
            case COUNT -> status == NOW && reply.value() instanceof Long;
            case REDUCE -> status == FAULT || status == NOW && !(reply.value() instanceof String);
            case SEARCH -> status == NOW && !(reply.value() instanceof Long);
            default -> true;
        };
    }

    /** The reply with this body, or null if the body is none of the protocol. */
    static Reply reply(byte[] body) {
        ByteBuffer bytes = ByteBuffer.wrap(body);
        if (body.length < 2) {
            return null;
        }
        int status = bytes.get() & 0xFF;
        int kind = bytes.get();
        Object value;
        if (kind == KIND_ABSENT && body.length == 2) {
            value = null;
        } else if (kind == KIND_NUMBER && body.length == 10) {
            value = bytes.getLong();
        } else if (kind == KIND_TEXT && body.length >= 4 && body.length == 4 + (bytes.getShort() & 0xFFFF)) {
            value = new String(body, 4, body.length - 4, StandardCharsets.UTF_8);
        } else {
            return null;
        }
        return isKnown(status, value) ? new Reply(status, value) : null;
    }

    private static boolean isKnown(int status, Object value) {
        return switch (status) {
            case WAS, NOW -> true;
            case DID -> value instanceof Long did && (did == 0 || did == 1);
            case FAULT -> value instanceof Long fault && fault >= 1 && fault <= 3;
            default -> status > REFUSED && value == null;
        };
    }
}
