package dchm.client;

import java.util.List;

/**
 * A change was sent and no reply came, or the store failed (status 89). The change was made, may be made yet, or never
 * is: its outcome is open. The client never sends it again. Who repeats it must know that twice is as good as once.
 */
public final class OutcomeOpenException extends DchmException {
    private static final long serialVersionUID = 1;
    /** The method of the call. */
    private final String method;
    /** The keys whose change is open. */
    private final String[] keys;

    OutcomeOpenException(String message, Throwable cause, byte[] frame) {
        this(message, cause, Wire.methodOf(frame), List.of(Wire.keyOf(frame)));
    }

    OutcomeOpenException(String message, Throwable cause, String method, List<String> keys) {
        super(message, cause);
        this.method = method;
        this.keys = keys.toArray(new String[0]);
    }

    /**
     * The method of the call.
     *
     * @return its name, such as {@code merge}
     */
    public String method() {
        return method;
    }

    /**
     * The keys whose change is open.
     *
     * @return the key of the call; of {@code putAll} each key whose entry may have been put
     */
    public List<String> keys() {
        return List.of(keys);
    }

    @Override
    DchmException here() {
        return new OutcomeOpenException(getMessage(), this, method, keys());
    }
}
