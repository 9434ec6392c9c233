package dchm.client;

/**
 * Who is told of the calls of a client and of its connections, such as what counts and times them. What it throws is
 * dropped. It is told of blocking calls on their own thread, and of all else where callbacks run.
 */
public interface DchmListener {
    /**
     * A call has ended.
     *
     * @param method the method, such as {@code put}
     * @param nanos how long it took from its begin, in nanoseconds
     * @param failure what it ended with; null if it was made
     */
    default void ended(String method, long nanos, Throwable failure) {
    }

    /**
     * A connection is there.
     *
     * @param server the address of the server
     */
    default void connected(String server) {
    }

    /**
     * A connection that was there has ended.
     *
     * @param server the address of the server
     * @param why what ended it, such as an idle time
     */
    default void lost(String server, Throwable why) {
    }
}
