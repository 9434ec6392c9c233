package dchm.client;

import static org.junit.Assert.assertEquals;
import static org.junit.Assert.assertFalse;
import static org.junit.Assert.assertNull;
import static org.junit.Assert.assertThrows;
import static org.junit.Assert.assertTrue;

import java.io.InputStream;
import java.io.OutputStream;
import java.net.Socket;
import java.nio.file.Files;
import java.nio.file.Path;
import java.time.Duration;
import java.util.ArrayList;
import java.util.List;
import java.util.OptionalLong;
import java.util.SplittableRandom;
import java.util.concurrent.CompletableFuture;
import java.util.concurrent.CompletionException;
import java.util.concurrent.CountDownLatch;
import java.util.concurrent.TimeUnit;
import org.junit.Test;

/**
 * Calls of a server that is stopped, takes no bytes, isn't there or stands behind a wire that cuts, delays and splits:
 * each ends with what is true of it, long before the {@link #GRACE_SECONDS} that a slow machine may need has passed.
 */
public final class StallTest {
    private static final Duration TIMEOUT = Duration.ofMillis(700);
    private static final int GRACE_SECONDS = 60;
    private static final int THREADS = 16;

    /** Runs it, and holds how long it took against the grace. */
    private static void inTime(String what, Peer.Work work) throws Exception {
        long begin = System.nanoTime();
        work.run();
        long took = System.nanoTime() - begin;
        assertTrue(what + " took " + TimeUnit.NANOSECONDS.toMillis(took) + " ms", took < TimeUnit.SECONDS.toNanos(GRACE_SECONDS));
    }

    private static DchmClient.Builder hasty(DchmClient.Builder options) {
        return options.timeout(TIMEOUT).connectTimeout(Server.LONG).wholeMapTimeout(TIMEOUT);
    }

    @Test
    public void calls_of_a_server_that_is_stopped_end_by_their_deadline() throws Exception {
        try (Server server = Server.real(); DchmClient client = hasty(server.options()).connections(4).readLane(true).connect()) {
            server.signal("STOP");
            try {
                for (int turn = 0; turn < 3; turn++) {
                    inTime("calls of a stopped server", () -> MapTest.inThreads(THREADS, () -> {
                        assertThrows(DchmException.class, () -> client.longs().merge("b" + Thread.currentThread().getId(), 1L, Fn.SUM));
                        assertThrows(NotMadeException.class, () -> client.longs().get("a"));
                    }));
                }
                inTime("a count", () -> assertThrows(NotMadeException.class, () -> client.longs().size()));
                inTime("a search", () -> assertThrows(NotMadeException.class, () -> client.longs().search(1L)));
                inTime("closing", client::close);
            } finally {
                server.signal("CONT");
            }
        }
    }

    /** So many calls, one after the other, that the thread which calls reads its replies itself. */
    static void leads(DchmClient client) {
        for (int i = 0; i < 100; i++) {
            try {
                client.longs().get("led");
            } catch (NotMadeException error) {
                // It took too long on a busy machine.
            }
        }
    }

    @Test
    public void a_thread_that_reads_for_itself_notices_its_deadline() throws Exception {
        try (Server server = Server.real(); DchmClient client = hasty(server.options()).connect()) {
            leads(client);
            server.signal("STOP");
            try {
                inTime("a read", () -> assertThrows(NotMadeException.class, () -> client.longs().get("a")));
                inTime("a change", () -> assertThrows(NotMadeException.class, () -> client.longs().put("a", 1L)));
            } finally {
                server.signal("CONT");
            }
        }
    }

    @Test
    public void an_interrupt_ends_a_call_whose_thread_reads_for_itself() throws Exception {
        try (Server server = Server.standIn("put a stall"); DchmClient client = server.client()) {
            CompletableFuture<DchmException> told = new CompletableFuture<>();
            Thread thread = Peer.inBackground(() -> {
                leads(client);
                told.complete(assertThrows(DchmException.class, () -> client.longs().put("a", 1L)));
            });
            assertTrue("the request never comes",
                Server.waitUntil(() -> server.received(Wire.request(Wire.PUT, Wire.key("a"), 1L)) > 0));
            thread.interrupt();
            inTime("it", () -> assertEquals(OutcomeOpenException.class, told.get(GRACE_SECONDS, TimeUnit.SECONDS).getClass()));
        }
    }

    @Test
    public void a_connection_that_ends_while_its_reader_stands_aside_is_noticed() throws Exception {
        try (Server server = Server.standIn("put a quit"); DchmClient client = server.client()) {
            leads(client);
            client.longs().put("a", 1L);
            inTime("it", () -> assertTrue(Server.waitUntil(() -> !((ServerClient) client).hasConnection())));
        }
    }

    @Test
    public void a_call_of_the_whole_map_has_its_own_deadline() throws Exception {
        try (Server server = Server.standIn("search - held"); DchmClient other = server.client();
             DchmClient client = server.options().timeout(TIMEOUT).connect()) {
            CompletableFuture<String> blocking = CompletableFuture.supplyAsync(() -> client.longs().search(1L));
            assertTrue("the request never comes", Server.waitUntil(() -> server.received(Wire.search(Long.MAX_VALUE, 1L)) == 1));
            Thread.sleep(3 * TIMEOUT.toMillis());
            assertFalse(blocking.isDone());
            other.longs().get("release");
            assertNull(blocking.join());
        }
        try (Server server = Server.standIn("reduce - held"); DchmClient other = server.client();
             DchmClient client = server.options().timeout(TIMEOUT).connect()) {
            CompletableFuture<OptionalLong> ahead = client.longs().async().reduceToLong(Fn.SUM);
            Thread.sleep(3 * TIMEOUT.toMillis());
            assertFalse(ahead.isDone());
            other.longs().get("release");
            assertEquals(OptionalLong.empty(), ahead.join());
        }
    }

    @Test
    public void closing_ends_the_calls_of_each_connection() throws Exception {
        try (Peer peer = new Peer((socket, in, out) -> {
            Peer.answerProbe(in, out);
            new CountDownLatch(1).await();
        }); DchmClient client = peer.options().connections(4).readLane(true).connect()) {
            List<CompletableFuture<Long>> calls = new ArrayList<>();
            for (int i = 0; i < 40; i++) {
                calls.add(client.longs().async().put("k" + i, 1L));
                calls.add(client.longs().async().get("r" + i));
            }
            assertTrue(Server.waitUntil(() -> peer.connections.get() == 8));
            inTime("it", () -> {
                client.close();
                for (CompletableFuture<Long> call : calls) {
                    assertThrows(java.util.concurrent.ExecutionException.class, () -> call.get(GRACE_SECONDS, TimeUnit.SECONDS));
                }
            });
        }
    }

    @Test
    public void attempts_that_fail_leave_no_descriptor() throws Exception {
        int port;
        try (Server server = Server.standIn()) {
            port = server.port;
        }
        Path descriptors = Path.of("/proc/self/fd");
        long before = -1;
        for (int i = 0; i < 120; i++) {
            assertThrows(NotMadeException.class, () -> DchmClient.connect(port));
            assertThrows(NotMadeException.class, () -> DchmClient.connect(Path.of("/no/such/socket")));
            if (i == 20) {
                before = count(descriptors);
            }
        }
        long most = before + 50;
        assertTrue("descriptors stay", Server.waitUntil(() -> count(descriptors) < most));
    }

    private static long count(Path directory) throws Exception {
        try (java.util.stream.Stream<Path> files = Files.list(directory)) {
            return files.count();
        }
    }

    @Test
    public void asynchronous_calls_of_a_server_that_takes_nothing_return_at_once_and_end_by_their_deadline() throws Exception {
        CountDownLatch mayEnd = new CountDownLatch(1);
        try (Peer peer = new Peer((socket, in, out) -> {
            Peer.answerProbe(in, out);
            mayEnd.await();
        }); DchmClient client = hasty(peer.options()).inFlight(100_000).connect()) {
            List<CompletableFuture<Object>> calls = new ArrayList<>();
            inTime("sending", () -> {
                for (int i = 0; i < 5000; i++) {
                    calls.add(client.async().put("k" + i, "x".repeat(4000)));
                }
            });
            int open = 0;
            int notMade = 0;
            for (CompletableFuture<Object> call : calls) {
                Throwable end = assertThrows(CompletionException.class, call::join).getCause();
                open += end instanceof OutcomeOpenException ? 1 : 0;
                notMade += end instanceof NotMadeException ? 1 : 0;
            }
            assertEquals(calls.size(), open + notMade);
            assertTrue("none fills the socket: " + open, open > 0 && notMade > 0);
            mayEnd.countDown();
        }
    }

    @Test
    public void a_server_that_is_not_there_is_told_and_found_once_it_is() throws Exception {
        int port;
        try (Server server = Server.standIn()) {
            port = server.port;
        }
        try (DchmClient client = DchmClient.at(port).lazy()) {
            inTime("calls", () -> MapTest.inThreads(THREADS, () -> {
                for (int turn = 0; turn < 5; turn++) {
                    assertThrows(NotMadeException.class, () -> client.longs().put("a", 1L));
                }
            }));
            Throwable end = assertThrows(CompletionException.class, () -> client.longs().async().put("a", 1L).join()).getCause();
            assertEquals(NotMadeException.class, end.getClass());
        }
        try (Server server = Server.real(); DchmClient client = server.options().lazy()) {
            assertFalse(((ServerClient) client).hasConnection());
            assertEquals(null, client.longs().put("a", 1L));
        }
    }

    @Test
    public void an_interrupt_ends_a_call_that_waits() throws Exception {
        try (Server server = Server.standIn("put a stall"); DchmClient client = server.client()) {
            for (String key : List.of("a", "b")) {
                CompletableFuture<DchmException> told = new CompletableFuture<>();
                Thread thread = Peer.inBackground(() -> {
                    told.complete(assertThrows(DchmException.class, () -> client.longs().put(key, 1L)));
                    assertTrue(Thread.interrupted());
                });
                if (key.equals("a")) {
                    assertTrue("the request never comes",
                        Server.waitUntil(() -> server.received(Wire.request(Wire.PUT, Wire.key("a"), 1L)) > 0));
                } else {
                    assertTrue("it never waits", Server.waitUntil(() -> thread.getState() == Thread.State.TIMED_WAITING));
                }
                thread.interrupt();
                // The first was sent; the second waits for the first's row.
                assertEquals(key.equals("a") ? OutcomeOpenException.class : NotMadeException.class,
                    told.get(GRACE_SECONDS, TimeUnit.SECONDS).getClass());
            }
        }
    }

    @Test
    public void a_wrong_peer_is_named() throws Exception {
        byte[] page = "HTTP/1.1 400 Bad Request\r\nConnection: close\r\n\r\n".getBytes();
        try (Peer peer = new Peer((socket, in, out) -> out.write(page))) {
            NotMadeException told = assertThrows(NotMadeException.class, () -> peer.options().connect());
            assertTrue(told.getMessage(), told.getMessage().contains("no server of this protocol")
                && told.getMessage().contains("HTTP/1.1 400"));
        }
        try (Peer peer = new Peer((socket, in, out) -> new CountDownLatch(1).await())) {
            NotMadeException told = assertThrows(NotMadeException.class, () -> peer.options().connectTimeout(TIMEOUT).connect());
            assertTrue(told.getMessage(), told.getMessage().contains("didn't serve the connection within 700 ms"));
        }
        Path file = Files.createTempFile("dchm-client-", ".none");
        NotMadeException told = assertThrows(NotMadeException.class, () -> DchmClient.connect(file));
        assertTrue(told.getMessage(), told.getMessage().contains("no socket"));
        Files.delete(file);
    }

    @Test
    public void a_reply_of_another_method_ends_the_connection_and_nothing_is_sent_twice() throws Exception {
        List<String> got = new java.util.concurrent.CopyOnWriteArrayList<>();
        try (Peer peer = new Peer((socket, in, out) -> {
            Peer.answerProbe(in, out);
            while (true) {
                got.add(Peer.named(Peer.body(in)));
                out.write(Peer.NOW_ABSENT);
            }
        }); DchmClient client = peer.options().connect()) {
            OutcomeOpenException told = assertThrows(OutcomeOpenException.class, () -> client.longs().put("a", 1L));
            assertTrue(told.getMessage(), told.getMessage().contains("a reply of another method"));
            assertEquals("put", told.method());
            assertEquals(List.of("a"), told.keys());
            assertThrows(NotMadeException.class, () -> client.longs().containsKey("b"));
            assertEquals(null, client.longs().get("c"));
            assertEquals(List.of("16 a", "3 b", "3 b", "1 c"), got);
        }
    }

    /** Passes bytes on in pieces, late, and ends connections at random. */
    private static Peer.Served wire(int port, long seed) {
        return (socket, in, out) -> {
            SplittableRandom random = new SplittableRandom(seed + socket.getPort());
            Socket server = new Socket("127.0.0.1", port);
            int most = random.nextInt(4) == 0 ? 200 : 20_000;
            Peer.inBackground(() -> pass(server.getInputStream(), out, random.split(), most, socket, server));
            pass(in, server.getOutputStream(), random.split(), most, socket, server);
        };
    }

    private static void pass(InputStream in, OutputStream out, SplittableRandom random, int most, Socket... ends) throws Exception {
        byte[] bytes = new byte[64];
        int left = random.nextInt(30, most);
        try {
            // What was cut off ends the connection at once: nothing may come behind it.
            while (left > 0) {
                int count = in.read(bytes, 0, 1 + random.nextInt(bytes.length));
                if (count < 0) {
                    return;
                }
                if (random.nextInt(50) == 0) {
                    Thread.sleep(random.nextInt(5));
                }
                out.write(bytes, 0, Math.min(count, left));
                left -= count;
            }
        } finally {
            for (Socket end : ends) {
                end.close();
            }
        }
    }

    @Test
    public void over_a_wire_that_cuts_delays_and_splits_what_is_told_is_true() throws Exception {
        try (Server server = Server.real(); Peer wire = new Peer(wire(server.port, 1));
             DchmClient client = wire.options().connections(2).timeout(Server.LONG).lazy(); DchmClient direct = server.client()) {
            MapTest.inThreads(8, () -> counts(client, direct));
            assertTrue("no connection was cut", wire.connections.get() > 2);
        }
    }

    /** Counts, blocking and ahead, and holds the counter against what was told. */
    private static void counts(DchmClient client, DchmClient direct) {
        String key = "n" + Thread.currentThread().getId();
        long made = 0;
        long open = 0;
        for (int turn = 0; turn < 150; turn++) {
            List<CompletableFuture<Long>> ahead = new ArrayList<>();
            for (int i = 0; i < turn % 7; i++) {
                ahead.add(client.longs().async().merge(key, 1L, Fn.SUM));
            }
            ahead.add(CompletableFuture.supplyAsync(() -> client.longs().merge(key, 1L, Fn.SUM), Runnable::run));
            for (CompletableFuture<Long> call : ahead) {
                try {
                    call.join();
                    made++;
                } catch (CompletionException error) {
                    open += error.getCause() instanceof OutcomeOpenException ? 1 : 0;
                }
            }
        }
        Long counted = direct.longs().get(key);
        assertTrue(made + " made, " + open + " open, counted: " + counted, counted >= made && counted <= made + open);
    }
}
