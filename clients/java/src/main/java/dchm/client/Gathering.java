package dchm.client;

/**
 * Whether what is queued waits for more. The server begins no call of a connection while changes of it wait for the
 * disk, and many reads go faster together. So what threads call meanwhile is written as one row behind the reply. The
 * row waits a little for the threads that were answered, as they call again.
 *
 * <p>It is kept by the lock of the lane, but for {@link #isExpecting}.
 */
final class Gathering {
    /** How long a row waits at most, for each call of it and in all: a thread takes so long to be woken. */
    private static final long NANOS_A_CALL = 6_000, MOST_NANOS = 100_000;
    /** How many rows at most go without, once one has waited in vain. */
    private static final int MOST_WITHOUT = 15;
    // How many calls waited at once since the last row was written: so many threads are there.
    private int company;
    // How many calls the next row waits for; 0 if it waits for none.
    private volatile int expected;
    // How many rows go without, and how many do after the next wait that is in vain.
    private int without;
    private int withoutNext = 1;

    /** So many calls are queued or under way. */
    void saw(int calls) {
        company = Math.max(company, calls);
    }

    /** The next row waits for as many calls as there are threads, and at most for so many, unless others do. */
    void expect(int most) {
        if (without > 0) {
            without--;
        } else if (company > 1) {
            expected = Math.min(company, most);
        }
    }

    /** Whether so many queued calls wait for no more. */
    boolean isEnough(int queued) {
        return queued >= expected;
    }

    /** Whether more is expected. */
    boolean isExpecting() {
        return expected > 0;
    }

    /** How long to wait for it at most. */
    long mostNanos() {
        return Math.min(MOST_NANOS, expected * NANOS_A_CALL);
    }

    /** What is queued waits no longer. */
    void giveUp() {
        if (expected > 0) {
            expected = 0;
            without = withoutNext;
            withoutNext = Math.min(2 * withoutNext + 1, MOST_WITHOUT);
        }
    }

    /** A row is written, and so many calls are under way with it. */
    void begin(int calls) {
        if (expected > 0) {
            expected = 0;
            withoutNext = 1;
        }
        company = calls;
    }
}
