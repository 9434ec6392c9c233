package dchm.client;

/** A call that has no reply that could be returned. The class says what became of the call. */
public abstract class DchmException extends RuntimeException {
    private static final long serialVersionUID = 1;

    DchmException(String message, Throwable cause) {
        super(message, cause);
    }

    /** The same end of a call, with the stack of the thread that waited for it. */
    abstract DchmException here();
}
