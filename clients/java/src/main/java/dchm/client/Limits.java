package dchm.client;

/**
 * What bounds a lane.
 *
 * @param place the address of the server, as it is told
 * @param inFlight how many requests may be under way
 * @param waiting how many calls ahead may wait for a place
 * @param connectNanos how long an attempt to connect may take
 * @param idleNanos after how long without a call a connection is ended; 0: never
 */
record Limits(String place, int inFlight, int waiting, long connectNanos, long idleNanos) {
    /** A deadline is noticed so much later at most: this share of the shortest, within bounds. */
    private static final long TICK_SHARE = 8, LEAST_TICK_NANOS = 1_000_000, MOST_TICK_NANOS = 250_000_000;

    /** How often to tell that it is later, if a call has so long. */
    long tickNanos(long timeoutNanos) {
        long idle = idleNanos == 0 ? Long.MAX_VALUE : idleNanos;
        long least = Math.min(Math.min(timeoutNanos, connectNanos), idle);
        return Math.max(LEAST_TICK_NANOS, Math.min(MOST_TICK_NANOS, least / TICK_SHARE));
    }
}
