package dchm.client;

import java.net.InetAddress;
import java.net.InetSocketAddress;
import java.net.SocketAddress;
import java.net.UnixDomainSocketAddress;
import java.net.UnknownHostException;
import java.nio.file.Path;
import java.time.Duration;
import java.util.concurrent.Executor;

/**
 * A client of one {@code dchm serve}, to be shared by all threads of a program. It has one connection if not told
 * otherwise, opened when it is needed and ended when it is idle. Each connection takes a place of the server
 * ({@code --connections}).
 */
public interface DchmClient extends AutoCloseable {
    /**
     * How a client is to be. Each method changes one thing and returns the builder. A client keeps the options that it
     * was made with. A time above 100 years counts as 100 years.
     */
    final class Builder {
        private static final Duration LONGEST = Duration.ofDays(36_500);
        final SocketAddress address;
        int connections = 1;
        int inFlight = 256;
        int waiting = 100_000;
        Duration connectTimeout = Duration.ofSeconds(5);
        Duration timeout = Duration.ofSeconds(30);
        Duration wholeMapTimeout = Duration.ofMinutes(5);
        Duration idle = Duration.ofSeconds(30);
        boolean hasReadLane;
        Executor callbacks;
        DchmListener listener;

        private Builder(SocketAddress address) {
            this.address = address;
        }

        /** The same options, of which a later change of the other builder changes nothing. */
        Builder(Builder other) {
            address = other.address;
            connections = other.connections;
            inFlight = other.inFlight;
            waiting = other.waiting;
            connectTimeout = other.connectTimeout;
            timeout = other.timeout;
            wholeMapTimeout = other.wholeMapTimeout;
            idle = other.idle;
            hasReadLane = other.hasReadLane;
            callbacks = other.callbacks;
            listener = other.listener;
        }

        private static int positive(int number) {
            if (number < 1) {
                throw new IllegalArgumentException("at least 1, not " + number);
            }
            return number;
        }

        private static Duration positive(Duration time) {
            if (time.isZero() || time.isNegative()) {
                throw new IllegalArgumentException("a time above 0, not " + time);
            }
            return time.compareTo(LONGEST) > 0 ? LONGEST : time;
        }

        /**
         * How many connections the client has at most; 1 if left out. A key's hash chooses its connection.
         *
         * @param most the number, at least 1
         * @return this builder
         */
        public Builder connections(int most) {
            connections = positive(most);
            return this;
        }

        /**
         * How many requests a connection has under way at most; 256 if left out. Further calls wait for a place.
         *
         * @param most the number, at least 1
         * @return this builder
         */
        public Builder inFlight(int most) {
            inFlight = positive(most);
            return this;
        }

        /**
         * How many asynchronous calls of a connection wait for a place at most; 100,000 if left out. One more ends with
         * a NotMadeException.
         *
         * @param most the number, at least 1
         * @return this builder
         */
        public Builder waiting(int most) {
            waiting = positive(most);
            return this;
        }

        /**
         * How long to wait until the server serves a new connection; 5 seconds if left out. All calls that need one
         * share the attempt.
         *
         * @param most the time, above 0
         * @return this builder
         */
        public Builder connectTimeout(Duration most) {
            connectTimeout = positive(most);
            return this;
        }

        /**
         * How long a call may take; 30 seconds if left out. It counts from the call's begin, for a place, for a
         * connection, for sending and for the reply. Replies come in order, so one that is overdue ends its connection.
         *
         * @param most the time, above 0
         * @return this builder
         */
        public Builder timeout(Duration most) {
            timeout = positive(most);
            return this;
        }

        /**
         * How long a call may take for which the server goes over its whole map; 5 minutes if left out. It has a
         * connection of its own.
         *
         * @param most the time, above 0
         * @return this builder
         */
        public Builder wholeMapTimeout(Duration most) {
            wholeMapTimeout = positive(most);
            return this;
        }

        /**
         * After how long without a call a connection is ended, which frees its place; 30 seconds if left out. It has
         * to be less than {@code --idle-seconds} of the server, so that no change is sent while the server ends it.
         *
         * @param most the time; 0 for never
         * @return this builder
         */
        public Builder idle(Duration most) {
            idle = most.isZero() ? most : positive(most);
            return this;
        }

        /**
         * Whether Gets have connections of their own, so that they wait for no change of other threads.
         *
         * @param isApart whether they have; no if left out
         * @return this builder
         */
        public Builder readLane(boolean isApart) {
            hasReadLane = isApart;
            return this;
        }

        /**
         * What completes the futures of the asynchronous map, so that their callbacks run there; the common pool if left
         * out. What it refuses to run, the common pool does.
         *
         * @param executor what runs them
         * @return this builder
         */
        public Builder callbacks(Executor executor) {
            callbacks = executor;
            return this;
        }

        /**
         * Who is told of calls and of connections; nobody if left out.
         *
         * @param told the listener
         * @return this builder
         */
        public Builder listener(DchmListener told) {
            listener = told;
            return this;
        }

        /**
         * Connects.
         *
         * @return a client whose first connection was answered
         * @throws NotMadeException if there is no server, its store has failed, or it has no place in time
         */
        public DchmClient connect() {
            ServerClient client = new ServerClient(this);
            try {
                client.open();
                return client;
            } catch (DchmException error) {
                client.close();
                throw error;
            }
        }

        /**
         * A client that connects with its first call. There need be no server yet.
         *
         * @return the client
         */
        public DchmClient lazy() {
            return new ServerClient(this);
        }
    }

    /**
     * A client of the server at a port of this machine.
     *
     * @param port the port
     * @return a builder, with which its options are chosen
     */
    static Builder at(int port) {
        try {
            return new Builder(new InetSocketAddress(InetAddress.getByAddress(new byte[] {127, 0, 0, 1}), port));
        } catch (UnknownHostException error) {
            throw new AssertionError(error);
        }
    }

    /**
     * A client of the server at a Unix socket.
     *
     * @param socket the path of the socket
     * @return a builder, with which its options are chosen
     */
    static Builder at(Path socket) {
        return new Builder(UnixDomainSocketAddress.of(socket));
    }

    /**
     * Connects to the server at a port of this machine, with no other option.
     *
     * @param port the port
     * @return a client whose first connection was answered
     * @throws NotMadeException if there is no server, its store has failed, or it has no place in time
     */
    static DchmClient connect(int port) {
        return at(port).connect();
    }

    /**
     * Connects to the server at a Unix socket, with no other option.
     *
     * @param socket the path of the socket
     * @return a client whose first connection was answered
     * @throws NotMadeException if there is no server, its store has failed, or it has no place in time
     */
    static DchmClient connect(Path socket) {
        return at(socket).connect();
    }

    /**
     * The map with numbers and texts as values. Nothing is sent.
     *
     * @return the map; each value is a Long or a String
     */
    DchmMap<Object> map();

    /**
     * The map as one of numbers. Nothing is sent. A text that a call meets is a ClassCastException.
     *
     * @return the map
     */
    DchmMap<Long> longs();

    /**
     * The map as one of texts. Nothing is sent. A number that a call meets is a ClassCastException.
     *
     * @return the map
     */
    DchmMap<String> texts();

    /**
     * The map with numbers and texts as values, whose calls return at once. Nothing is sent.
     *
     * @return the map
     */
    default AsyncDchmMap<Object> async() {
        return map().async();
    }

    /**
     * Ends the connections. It waits for nothing. Each change that is under way ends with an OutcomeOpenException, each
     * read with a NotMadeException, and each later call with an IllegalStateException.
     */
    @Override
    void close();
}
