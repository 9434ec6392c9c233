package dchm.client;

import static org.junit.Assert.assertEquals;
import static org.junit.Assert.assertFalse;
import static org.junit.Assert.assertNull;
import static org.junit.Assert.assertThrows;
import static org.junit.Assert.assertTrue;

import java.nio.file.Path;
import java.time.Duration;
import java.util.ArrayList;
import java.util.LinkedHashMap;
import java.util.List;
import java.util.Map;
import java.util.concurrent.Callable;
import java.util.concurrent.CompletableFuture;
import java.util.concurrent.CompletionException;
import org.junit.Test;

/** What a client says of a server that stalls, breaks off and lies, and that it sends no change twice. */
public final class OutcomeTest {
    private static byte[] sum(String key) {
        return Wire.request(Wire.MERGE, Wire.key(key), Fn.SUM, 1L);
    }

    private static final List<String> MADE = List.of("drop", "reset", "failed", "garbled", "cut 0", "cut 1", "cut 2",
        "cut 3", "cut 4", "cut 5", "cut 6", "cut 7", "cut 8", "cut 9", "cut 10", "cut 11");

    @Test
    public void a_change_without_a_whole_reply_is_open_and_sent_once() throws Exception {
        List<String> rules = new ArrayList<>(MADE);
        rules.add("unmade");
        String[] words = rules.stream().map(rule -> "merge " + rule.replace(" ", "") + " " + rule).toArray(String[]::new);
        try (Server server = Server.standIn(words); DchmClient client = server.client()) {
            DchmMap<Long> map = client.longs();
            for (String rule : rules) {
                String key = rule.replace(" ", "");
                assertThrows(rule, OutcomeOpenException.class, () -> map.merge(key, 1L, Fn.SUM));
                assertEquals(rule, MADE.contains(rule) ? 1L : null, map.get(key));
                assertEquals(rule, 1, server.received(sum(key)));
            }
        }
    }

    @Test
    public void a_change_that_stalls_is_open_and_sent_once() throws Exception {
        try (Server server = Server.standIn("merge a stall", "merge b late"); DchmClient client = server.client();
             DchmClient hasty = server.options().timeout(Server.SHORT).connect()) {
            assertThrows(OutcomeOpenException.class, () -> hasty.longs().merge("a", 1L, Fn.SUM));
            assertThrows(OutcomeOpenException.class, () -> hasty.longs().merge("b", 1L, Fn.SUM));
            // Both were sent, and the second was made after the client had given it up.
            for (String key : List.of("a", "b")) {
                assertTrue(key, Server.waitUntil(() -> client.longs().get(key) != null));
                assertEquals(1L, (long) client.longs().get(key));
                assertEquals(1, server.received(sum(key)));
            }
        }
    }

    @Test
    public void a_reply_that_comes_late_or_in_pieces_is_a_reply() throws Exception {
        try (Server server = Server.standIn("merge a held", "merge b bytewise"); DchmClient client = server.client();
             DchmClient other = server.client()) {
            CompletableFuture<Long> late = client.longs().async().merge("a", 1L, Fn.SUM);
            CompletableFuture<Long> behind = client.longs().async().merge("a", 1L, Fn.SUM);
            assertTrue("the request never comes", Server.waitUntil(() -> server.received(sum("a")) > 0));
            assertFalse(late.isDone());
            other.longs().get("release");
            assertEquals(1L, (long) late.join());
            assertEquals(2L, (long) behind.join());
            assertEquals(1L, (long) client.longs().merge("b", 1L, Fn.SUM));
        }
    }

    @Test
    public void a_reply_to_no_request_ends_the_connection() throws Exception {
        try (Server server = Server.standIn("merge a twice"); DchmClient client = server.client()) {
            assertEquals(1L, (long) client.longs().merge("a", 1L, Fn.SUM));
            assertTrue("the connection never ends", Server.waitUntil(() -> !((ServerClient) client).hasConnection()));
            assertEquals(2L, (long) client.longs().merge("a", 1L, Fn.SUM));
        }
    }

    @Test
    public void a_refusal_for_want_of_memory_changes_nothing_and_may_be_tried_again() throws Exception {
        try (Server server = Server.standIn("merge a full"); DchmClient client = server.client()) {
            RefusedException refused = assertThrows(RefusedException.class, () -> client.longs().merge("a", 1L, Fn.SUM));
            assertEquals(7, refused.number());
            assertTrue(refused.mayTryAgain());
            assertEquals(1, server.received(sum("a")));
            assertEquals(1L, (long) client.longs().merge("a", 1L, Fn.SUM));
        }
    }

    @Test
    public void a_read_without_a_reply_is_sent_once_more() throws Exception {
        List<String> rules = List.of("drop", "reset", "unmade", "cut 5", "garbled");
        List<String> words = new ArrayList<>();
        rules.forEach(rule -> words.addAll(List.of("get " + rule.replace(" ", "") + " " + rule,
            "containsKey " + rule.replace(" ", "") + " " + rule)));
        try (Server server = Server.standIn(words.toArray(new String[0])); DchmClient client = server.client()) {
            for (String rule : rules) {
                String key = rule.replace(" ", "");
                client.longs().put(key, 1L);
                assertEquals(rule, 1L, (long) client.longs().get(key));
                assertTrue(rule, client.longs().containsKey(key));
                assertEquals(rule, 2, server.received(Wire.request(Wire.GET, Wire.key(key))));
            }
        }
    }

    @Test
    public void a_read_that_is_overdue_or_of_a_failed_store_was_not_made() throws Exception {
        try (Server server = Server.standIn("get a stall", "get b failed"); DchmClient client = server.client();
             DchmClient hasty = server.options().timeout(Server.SHORT).connect()) {
            assertThrows(NotMadeException.class, () -> hasty.longs().get("a"));
            assertThrows(NotMadeException.class, () -> client.longs().get("b"));
        }
    }

    @Test
    public void a_function_of_the_caller_is_not_tried_again_once_a_change_is_open() throws Exception {
        try (Server server = Server.standIn("replaceIf a drop"); DchmClient client = server.client()) {
            client.longs().put("a", 1L);
            assertThrows(OutcomeOpenException.class, () -> client.longs().merge("a", 1L, Long::sum));
            assertEquals(2L, (long) client.longs().get("a"));
            assertEquals(1, server.received(Wire.request(Wire.REPLACE_IF, Wire.key("a"), 1L, 2L)));
        }
    }

    @Test
    public void all_that_is_under_way_is_told_when_a_connection_breaks() throws Exception {
        try (Server server = Server.standIn("put k50 unmade"); DchmClient client = server.client()) {
            List<CompletableFuture<Long>> calls = new ArrayList<>();
            AsyncDchmMap<Long> async = client.longs().async();
            for (int i = 0; i < 100; i++) {
                calls.add(i % 10 == 9 ? async.get("k" + i) : async.put("k" + i, 1L));
            }
            int open = 0;
            for (int i = 0; i < 100; i++) {
                try {
                    calls.get(i).join();
                    assertTrue("k50 was made", i != 50);
                } catch (CompletionException error) {
                    boolean isOpen = error.getCause() instanceof OutcomeOpenException;
                    boolean wasSent = server.received(Wire.request(Wire.PUT, Wire.key("k" + i), 1L)) > 0;
                    assertTrue("k" + i, isOpen || error.getCause() instanceof NotMadeException);
                    assertTrue("a read has no outcome: k" + i, !isOpen || i % 10 != 9);
                    assertTrue("k" + i + " was sent, and isn't open", isOpen || !wasSent);
                    open += isOpen ? 1 : 0;
                }
            }
            assertTrue("k50 is open", open >= 1);
            for (int i = 0; i < 100; i++) {
                byte[] put = Wire.request(Wire.PUT, Wire.key("k" + i), 1L);
                assertTrue("k" + i + " was sent twice", server.received(put) <= 1);
            }
        }
    }

    @Test
    public void put_all_of_which_one_is_open_says_so() throws Exception {
        try (Server server = Server.standIn("put a drop"); DchmClient client = server.client()) {
            assertThrows(OutcomeOpenException.class, () -> client.longs().putAll(Map.of("a", 1L)));
            assertEquals(1, server.received(Wire.request(Wire.PUT, Wire.key("a"), 1L)));
        }
    }

    @Test
    public void put_all_says_that_an_entry_is_open_whatever_came_of_those_before() throws Exception {
        Map<String, Long> entries = new LinkedHashMap<>();
        List.of("a", "b", "c").forEach(key -> entries.put(key, 1L));
        try (Server server = Server.standIn("put a full", "put b drop"); DchmClient client = server.client()) {
            assertThrows(OutcomeOpenException.class, () -> client.longs().putAll(entries));
            assertNull(client.longs().get("a"));
            assertEquals(1L, (long) client.longs().get("b"));
        }
    }

    @Test
    public void a_call_of_the_whole_map_ends_with_its_client() throws Exception {
        try (Server server = Server.standIn("count - stall", "search - stall"); DchmClient client = server.client()) {
            CompletableFuture<Long> count = CompletableFuture.supplyAsync(client.longs()::mappingCount);
            CompletableFuture<String> search = CompletableFuture.supplyAsync(() -> client.longs().search(1L));
            assertTrue("the requests never come", Server.waitUntil(() -> server.received(Wire.count()) > 0
                && server.received(Wire.search(Long.MAX_VALUE, 1L)) > 0));
            client.close();
            for (CompletableFuture<?> call : List.of(count, search)) {
                Throwable told = assertThrows(CompletionException.class, call::join).getCause();
                assertEquals(NotMadeException.class, told.getClass());
            }
        }
    }

    @Test
    public void calls_under_way_are_told_when_the_client_is_closed() throws Exception {
        try (Server server = Server.standIn("put a stall"); DchmClient client = server.client()) {
            CompletableFuture<Long> put = client.longs().async().put("a", 1L);
            CompletableFuture<Long> get = client.longs().async().get("a");
            client.close();
            Throwable change = assertThrows(CompletionException.class, put::join).getCause();
            Throwable read = assertThrows(CompletionException.class, get::join).getCause();
            assertEquals(OutcomeOpenException.class, change.getClass());
            assertEquals(NotMadeException.class, read.getClass());
        }
    }

    @Test
    public void a_full_window_bounds_what_is_under_way() throws Exception {
        byte[] put = Wire.request(Wire.PUT, Wire.key("b"), 1L);
        try (Server server = Server.standIn("put a held"); DchmClient other = server.client();
             DchmClient client = server.options().inFlight(1).connect()) {
            CompletableFuture<Long> held = client.longs().async().put("a", 1L);
            CompletableFuture<Long> waits = CompletableFuture.supplyAsync(() -> client.longs().put("b", 1L));
            for (int turn = 0; turn < 5; turn++) {
                assertEquals("it was sent beside the one under way", 0, server.received(put));
                Thread.sleep(Server.TURN_MILLIS);
            }
            other.longs().get("release");
            assertNull(held.join());
            assertNull(waits.join());
            assertEquals(1, server.received(put));
        }
    }

    @Test
    public void a_thread_that_is_interrupted_while_the_window_is_full_sends_nothing() throws Exception {
        try (Server server = Server.standIn("put a held"); DchmClient other = server.client();
             DchmClient client = server.options().inFlight(1).connect()) {
            CompletableFuture<Long> held = client.longs().async().put("a", 1L);
            Thread.currentThread().interrupt();
            assertThrows(NotMadeException.class, () -> client.longs().put("b", 1L));
            assertTrue(Thread.interrupted());
            other.longs().get("release");
            assertNull(held.join());
            assertEquals(0, server.received(Wire.request(Wire.PUT, Wire.key("b"), 1L)));
        }
    }

    // ---- connecting

    @Test
    public void no_server_and_a_failed_store_are_told_by_connecting() throws Exception {
        int port;
        try (Server server = Server.standIn()) {
            port = server.port;
        }
        assertThrows(NotMadeException.class, () -> DchmClient.connect(port));
        try (Server server = Server.standIn("get '' failed")) {
            NotMadeException error = assertThrows(NotMadeException.class, server::client);
            assertTrue(error.getMessage(), error.getMessage().contains("refused 9 Failed"));
            server.client().close();
        }
        assertThrows(NotMadeException.class, () -> DchmClient.at(Path.of("/no/such/socket")).connect());
    }

    @Test
    public void a_server_that_serves_no_more_connections_is_told() throws Exception {
        try (Server server = Server.real("--connections", "1"); DchmClient first = server.client()) {
            first.longs().put("a", 1L);
            NotMadeException error = assertThrows(NotMadeException.class, server::client);
            assertTrue(error.getMessage(), error.getMessage().contains("--connections"));
            first.close();
            try (DchmClient second = placed(server)) {
                assertEquals(1L, (long) second.longs().get("a"));
            }
        }
    }

    /** A client, once the server has a place for it. */
    private static DchmClient placed(Server server) throws Exception {
        return made(server::client);
    }

    /** What a call gives once it is made: while the server has no place for the client, nothing of it is. */
    private static <T> T made(Callable<T> call) throws Exception {
        List<T> found = new ArrayList<>();
        assertTrue("no connection", Server.waitUntil(() -> {
            try {
                found.add(call.call());
                return true;
            } catch (NotMadeException error) {
                return false;
            }
        }));
        return found.get(0);
    }

    @Test
    public void a_call_of_the_whole_map_needs_a_connection_of_its_own_and_a_count_does_not() throws Exception {
        try (Server server = Server.real("--connections", "1"); DchmClient client = server.client()) {
            client.longs().put("a", 1L);
            assertThrows(NotMadeException.class, () -> client.longs().search(1L));
            assertEquals(1L, (long) client.longs().get("a"));
            assertEquals(1, client.longs().size());
            assertFalse(client.longs().isEmpty());
            CompletableFuture<Long> put = client.longs().async().put("b", 1L);
            assertEquals("what was sent before is counted", 2L, (long) client.longs().async().mappingCount().join());
            assertNull(put.join());
        }
    }

    @Test
    public void an_idle_client_frees_its_place_and_comes_back() throws Exception {
        try (Server server = Server.real("--connections", "1");
             DchmClient first = server.options().idle(Duration.ofMillis(100)).connect();
             DchmClient second = placed(server)) {
            assertNull(second.longs().put("a", 1L));
            second.close();
            assertEquals(1L, (long) made(() -> first.longs().get("a")));
            assertEquals(2L, (long) first.longs().merge("a", 1L, Fn.SUM));
        }
    }

    @Test
    public void the_end_of_an_idle_connection_by_the_server_is_no_error() throws Exception {
        try (Server server = Server.standIn("put a quit"); DchmClient client = server.client()) {
            client.longs().put("a", 1L);
            assertTrue("the connection never ends", Server.waitUntil(() -> !((ServerClient) client).hasConnection()));
            assertEquals(2L, (long) client.longs().merge("a", 1L, Fn.SUM));
        }
    }

    @Test
    public void a_unix_socket_is_as_good_as_a_port() throws Exception {
        try (Server server = Server.atSocket("merge b drop", "get c drop");
             DchmClient client = DchmClient.at(server.socket()).timeout(Server.LONG).connect()) {
            DchmMap<Long> map = client.longs();
            assertNull(map.put("a", 1L));
            assertEquals(3L, (long) map.merge("a", 2L, Fn.SUM));
            assertEquals(1, map.size());
            assertThrows(OutcomeOpenException.class, () -> map.merge("b", 1L, Fn.SUM));
            assertNull(map.get("c"));
            List<CompletableFuture<Long>> calls = new ArrayList<>();
            for (int i = 0; i < 1000; i++) {
                calls.add(map.async().merge("n", 1L, Fn.SUM));
            }
            assertEquals(1000L, (long) calls.get(999).join());
        }
    }

    @Test
    public void the_server_is_reached_by_its_unix_socket_too() throws Exception {
        try (Server server = Server.realAtSocket(); DchmClient byPort = server.client();
             DchmClient bySocket = DchmClient.connect(server.socket())) {
            assertNull(bySocket.longs().put("a", 1L));
            assertEquals(3L, (long) byPort.longs().merge("a", 2L, Fn.SUM));
            assertEquals(3L, (long) bySocket.longs().get("a"));
            assertEquals(1, bySocket.longs().size());
        }
    }

    @Test
    public void options_that_cannot_be_are_refused() {
        assertThrows(IllegalArgumentException.class, () -> DchmClient.at(1).connections(0));
        assertThrows(IllegalArgumentException.class, () -> DchmClient.at(1).inFlight(0));
        assertThrows(IllegalArgumentException.class, () -> DchmClient.at(1).timeout(Duration.ZERO));
        assertThrows(IllegalArgumentException.class, () -> DchmClient.at(1).idle(Duration.ofSeconds(-1)));
    }
}
