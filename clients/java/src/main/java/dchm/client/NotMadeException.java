package dchm.client;

/**
 * The call was not made and will not be: nothing of it was sent, or it changes nothing. Nothing is open. It may be
 * made again.
 */
public final class NotMadeException extends DchmException {
    private static final long serialVersionUID = 1;

    NotMadeException(String message, Throwable cause) {
        super(message, cause);
    }

    @Override
    DchmException here() {
        return new NotMadeException(getMessage(), this);
    }
}
