package dchm.client;

/** What a reply says of its call. */
final class Told {
    private Told() {
    }

    /** The reply, if it is one of the method; else what it says as an exception. */
    static Wire.Reply checked(Wire.Reply reply, byte[] frame) {
        if (reply.status() < Wire.FAULT) {
            return reply;
        }
        if (reply.status() == Wire.FAULT) {
            throw fault(((Long) reply.value()).intValue());
        }
        int number = reply.status() - Wire.REFUSED;
        if (number != Wire.FAILED) {
            throw new RefusedException(number);
        }
        String message = "refused 9 Failed: the store has failed; the server has to be restarted";
        throw Wire.isChange(frame) ? new OutcomeOpenException(message, null, frame) : new NotMadeException(message, null);
    }

    private static RuntimeException fault(int number) {
        return switch (number) {
            case Wire.WRONG_KIND -> new ClassCastException("fault 1 WrongKind: the function doesn't take these values");
            case Wire.TOO_LONG -> new IllegalArgumentException("fault 2 TooLong: the text would have more than "
                + Wire.TEXT_LIMIT + " bytes");
            default -> new ArithmeticException("fault 3 Overflow: long overflow");
        };
    }
}
