package dchm.client;

import static org.junit.Assert.assertEquals;
import static org.junit.Assert.assertFalse;
import static org.junit.Assert.assertThrows;
import static org.junit.Assert.assertTrue;

import java.time.Duration;
import java.util.ArrayList;
import java.util.List;
import java.util.concurrent.CompletableFuture;
import java.util.concurrent.CountDownLatch;
import java.util.concurrent.TimeUnit;
import java.util.concurrent.atomic.AtomicBoolean;
import org.junit.Test;

/** Calls end by their deadline, whatever a server does, and asynchronous ones wait for nothing. */
public final class DeadlineTest {
    private static final int THREADS = 16;
    /** More than a slow machine needs, and less than the watchdog waits. */
    private static final int GRACE_SECONDS = 60;

    /** Answers the first connection's probe; later connections get nothing. */
    private static Peer.Served onlyFirst(AtomicBoolean isFirst, CountDownLatch mayEnd) {
        return (socket, in, out) -> {
            if (isFirst.getAndSet(false)) {
                Peer.answerProbe(in, out);
                Peer.body(in);
                socket.close();
            } else {
                mayEnd.await();
            }
        };
    }

    @Test
    public void threads_that_need_a_connection_share_one_attempt() throws Exception {
        CountDownLatch mayEnd = new CountDownLatch(1);
        try (Peer peer = new Peer(onlyFirst(new AtomicBoolean(true), mayEnd));
             DchmClient client = peer.options().connectTimeout(Duration.ofSeconds(3)).timeout(Server.LONG).connect()) {
            assertThrows(OutcomeOpenException.class, () -> client.longs().put("a", 1L));
            MapTest.inThreads(THREADS, () -> assertThrows(NotMadeException.class, () -> client.longs().put("b", 1L)));
            assertTrue("connections: " + peer.connections.get(), peer.connections.get() <= 3);
            mayEnd.countDown();
        }
    }

    @Test
    public void an_asynchronous_call_does_not_wait_for_a_connection() throws Exception {
        CountDownLatch mayEnd = new CountDownLatch(1);
        try (Peer peer = new Peer(onlyFirst(new AtomicBoolean(true), mayEnd));
             DchmClient client = peer.options().connectTimeout(Duration.ofSeconds(5)).connect()) {
            assertThrows(OutcomeOpenException.class, () -> client.longs().put("a", 1L));
            CompletableFuture<Long> call = client.longs().async().put("b", 1L);
            assertFalse("the call came back with its end", call.isDone());
            mayEnd.countDown();
        }
    }

    @Test
    public void an_asynchronous_call_does_not_wait_for_a_place() throws Exception {
        try (Server server = Server.standIn("put a held"); DchmClient other = server.client();
             DchmClient client = server.options().inFlight(1).connect()) {
            CompletableFuture<Long> held = client.longs().async().put("a", 1L);
            CompletableFuture<Long> waits = client.longs().async().put("b", 1L);
            assertFalse("the call came back with its end", waits.isDone());
            other.longs().get("release");
            held.join();
            waits.join();
        }
    }

    @Test
    public void a_callback_may_open_connections() throws Exception {
        try (Server server = Server.real(); DchmClient client = server.options().connections(8).connect()) {
            AsyncDchmMap<Long> map = client.longs().async();
            List<CompletableFuture<Long>> chains = new ArrayList<>();
            for (int i = 0; i < 8; i++) {
                String key = "k" + i;
                chains.add(map.put("first", 1L).thenCompose(old -> map.merge(key, 1L, Fn.SUM)));
            }
            for (CompletableFuture<Long> chain : chains) {
                assertEquals(1L, (long) chain.join());
            }
        }
    }

    @Test
    public void a_callback_runs_neither_inside_the_call_of_another_thread_nor_on_the_reader() throws Exception {
        try (Server server = Server.real(); DchmClient client = server.client()) {
            AsyncDchmMap<Long> map = client.longs().async();
            AtomicBoolean goesOn = new AtomicBoolean(true);
            Thread getter = Peer.inBackground(() -> {
                while (goesOn.get()) {
                    client.longs().get("a");
                }
            });
            List<Thread> ran = new ArrayList<>();
            for (int i = 0; i < 500; i++) {
                map.put("a", 1L).thenAccept(old -> {
                    synchronized (ran) {
                        ran.add(Thread.currentThread());
                    }
                }).join();
            }
            goesOn.set(false);
            getter.join();
            assertFalse("a callback ran inside a blocking call", ran.contains(getter));
            assertTrue("a callback ran on the reader", ran.stream().noneMatch(thread -> thread.getName().startsWith("dchm")));
        }
    }

    /** A callback that blocks until it may end. It says that it has begun, and whether it was told to end. */
    private static CompletableFuture<Boolean> blocked(CompletableFuture<Long> call, CountDownLatch hasBegun, CountDownLatch mayEnd) {
        return call.thenApply(old -> {
            hasBegun.countDown();
            try {
                return mayEnd.await(GRACE_SECONDS, TimeUnit.SECONDS);
            } catch (InterruptedException error) {
                throw new IllegalStateException(error);
            }
        });
    }

    @Test
    public void a_callback_that_blocks_holds_nothing_up() throws Exception {
        CountDownLatch hasBegun = new CountDownLatch(1);
        CountDownLatch mayEnd = new CountDownLatch(1);
        try (Server server = Server.standIn("put a held"); DchmClient other = server.client(); DchmClient client = server.client()) {
            // A callback that is added once the call has ended would run, and block, on this thread.
            CompletableFuture<Boolean> blocked = blocked(client.longs().async().put("a", 1L), hasBegun, mayEnd);
            other.longs().get("release");
            hasBegun.await();
            assertEquals(1L, (long) client.longs().get("a"));
            assertEquals(1L, (long) client.longs().async().get("a").join());
            mayEnd.countDown();
            assertTrue("it was held up until the callback gave up", blocked.join());
        }
    }
}
