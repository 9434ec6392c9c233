package dchm.client;

/** The server refused the call. Nothing changed, and nothing is open. */
public final class RefusedException extends DchmException {
    private static final long serialVersionUID = 1;
    /** The number of the refusal. */
    private final int number;

    RefusedException(int number) {
        this(number, null);
    }

    private RefusedException(int number, Throwable cause) {
        super("refused " + number + " " + Wire.refusalName(number), cause);
        this.number = number;
    }

    @Override
    DchmException here() {
        return new RefusedException(number, this);
    }

    /**
     * Why the server refused.
     *
     * @return the number of the refusal: the status of the reply less 80 (hexadecimal)
     */
    public int number() {
        return number;
    }

    /**
     * Whether the same call may succeed later. That is so of refusal 7 alone: the server found no memory.
     *
     * @return whether it may be tried again
     */
    public boolean mayTryAgain() {
        return number == Wire.NO_MEMORY;
    }
}
