package dchm.client;

import java.util.ArrayList;
import java.util.List;
import java.util.Map;

/** The entries of a putAll, and what came of them. */
final class Puts {
    private final List<String> open = new ArrayList<>();
    private RuntimeException first;
    private OutcomeOpenException firstOpen;

    /** The request of each entry; if one of them can't be, nothing is sent. */
    static List<byte[]> frames(Map<?, ?> entries, Class<?> kind) {
        List<byte[]> frames = new ArrayList<>(entries.size());
        entries.forEach((key, value) -> frames.add(Wire.request(Wire.PUT, Wire.key(key), Wire.checked(kind, value))));
        return frames;
    }

    /** An entry wasn't put, or perhaps. */
    synchronized void add(byte[] frame, RuntimeException error) {
        first = first == null ? error : first;
        if (error instanceof OutcomeOpenException failure) {
            firstOpen = firstOpen == null ? failure : firstOpen;
            open.add(Wire.keyOf(frame));
        }
    }

    /** Throws if an entry is open; else if one wasn't put. */
    synchronized void end() {
        if (firstOpen != null) {
            throw new OutcomeOpenException("putAll: " + open.size() + " entries are open, such as that of "
                + firstOpen.getMessage(), firstOpen, "putAll", open);
        }
        if (first != null) {
            throw first;
        }
    }
}
