package dchm.client;

import static org.junit.Assert.assertEquals;
import static org.junit.Assert.assertFalse;
import static org.junit.Assert.assertNull;
import static org.junit.Assert.assertThrows;
import static org.junit.Assert.assertTrue;

import java.util.ArrayList;
import java.util.HashMap;
import java.util.LinkedHashMap;
import java.util.List;
import java.util.Map;
import java.util.OptionalLong;
import java.util.concurrent.CompletableFuture;
import java.util.concurrent.CompletionException;
import java.util.concurrent.ConcurrentHashMap;
import java.util.concurrent.CopyOnWriteArrayList;
import java.util.concurrent.Executor;
import java.util.concurrent.Executors;
import java.util.concurrent.RejectedExecutionException;
import java.util.concurrent.ExecutorService;
import org.junit.Test;

/** What the maps and the client promise beside the results of single calls. */
public final class ContractTest {
    /** A map of a user's test. */
    private static final class Fake<V> extends ConcurrentHashMap<String, V> implements DchmMap<V> {
        private static final long serialVersionUID = 1;
    }

    private static <T> T value(CompletableFuture<T> call) {
        return call.join();
    }

    /** Each method, blocking and not, gives the same, and what the comment beside it says. */
    private static void playEach(DchmMap<Object> map) {
        AsyncDchmMap<Object> async = map.async();
        assertNull(value(async.put("a", 1L)));
        assertEquals(1L, value(async.put("a", 2L)));
        assertEquals(2L, value(async.putIfAbsent("a", 3L)));
        assertEquals(2L, map.get("a"));
        assertNull(value(async.putIfAbsent("b", 3L)));
        assertNull(value(async.replace("c", 3L)));
        assertFalse(map.containsKey("c"));
        assertEquals(3L, value(async.replace("b", 4L)));
        assertFalse(value(async.replace("b", 3L, 5L)));
        assertTrue(value(async.replace("b", 4L, 5L)));
        assertFalse(value(async.remove("b", 4L)));
        assertEquals(5L, value(async.get("b")));
        assertTrue(value(async.remove("b", 5L)));
        assertNull(value(async.remove("b")));
        assertEquals(2L, value(async.getOrDefault("a", 9L)));
        assertEquals(9L, value(async.getOrDefault("b", 9L)));
        assertNull(value(async.getOrDefault("b", null)));
        assertTrue(value(async.containsKey("a")));
        assertEquals(5L, value(async.merge("a", 3L, Fn.SUM.any())));
        assertEquals(7L, value(async.compute("d", Fn.SUM.any(), 7L)));
        assertEquals(8L, value(async.compute("d", Fn.SUM.any(), 1L)));
        assertEquals(8L, value(async.computeIfAbsent("d", Fn.constant(), 1L)));
        assertEquals(1L, value(async.computeIfAbsent("e", Fn.constant(), 1L)));
        assertNull(value(async.computeIfPresent("f", Fn.constant(), 1L)));
        assertEquals(2L, value(async.computeIfPresent("e", Fn.SUM.any(), 1L)));
        assertNull(value(async.compute("e", Fn.drop(), null)));
        assertNull(value(async.compute("e", Fn.keep(), null)));
        assertNull(value(async.compute("e", Fn.SUM_NONZERO.any(), 0L)));
        assertNull(value(async.putAll(Map.of("x", 5L, "y", 8L))));
        assertEquals(4L, (long) value(async.mappingCount()));
        assertEquals(4L, map.mappingCount());
        assertEquals("d", value(async.search(8L)));
        assertNull(value(async.search(80L)));
        assertEquals("d", map.search(8L));
        assertTrue(value(async.containsValue(5L)));
        assertFalse(value(async.containsValue(50L)));
        assertEquals(OptionalLong.of(26), value(async.reduceToLong(Fn.SUM)));
        assertEquals(OptionalLong.of(8), map.reduceToLong(Fn.MAX));
    }

    @Test
    public void the_asynchronous_map_has_the_methods_of_the_other_and_a_fake_has_both() throws Exception {
        try (Server server = Server.real(); DchmClient client = server.client()) {
            playEach(client.map());
        }
        playEach(new Fake<>());
    }

    @Test
    public void what_no_server_can_hold_is_not_there() throws Exception {
        String half = "\ud83d";
        String longKey = "k".repeat(4096);
        String longText = "x".repeat(4097);
        try (Server server = Server.real(); DchmClient client = server.client()) {
            DchmMap<Object> map = client.map();
            map.put("a", "x");
            for (String key : List.of(half, longKey)) {
                assertFalse(map.replace(key, "x", "y"));
                assertFalse(value(map.async().replace(key, "x", "y")));
                assertNull(value(map.async().get(key)));
                assertNull(value(map.async().remove(key)));
                assertFalse(value(map.async().remove(key, "x")));
                assertFalse(value(map.async().containsKey(key)));
                assertEquals(3L, value(map.async().getOrDefault(key, 3L)));
                assertThrows(IllegalArgumentException.class, () -> map.async().merge(key, "x", Fn.CONCAT.any()));
            }
            for (Object old : List.of(half, longText, 5)) {
                assertFalse(map.replace("a", old, "y"));
                assertFalse(map.remove("a", old));
                assertFalse(value(map.async().replace("a", old, "y")));
                assertFalse(value(map.async().remove("a", old)));
            }
            assertThrows(IllegalArgumentException.class, () -> map.replace("a", half, longText));
            assertThrows(NullPointerException.class, () -> map.async().replace("a", null, "y"));
            assertThrows(NullPointerException.class, () -> map.async().remove("a", null));
            Map<String, Object> entries = new LinkedHashMap<>(Map.of("b", 1L));
            entries.put("c", longText);
            assertThrows(IllegalArgumentException.class, () -> map.putAll(entries));
            assertThrows(IllegalArgumentException.class, () -> map.async().putAll(entries));
            assertEquals("nothing was sent", 1, map.size());
        }
    }

    @Test
    public void a_map_equals_others_with_its_entries() throws Exception {
        try (Server server = Server.real(); DchmClient client = server.client(); DchmClient other = server.client()) {
            DchmMap<Object> map = client.map();
            assertEquals(map, Map.of());
            map.putAll(Map.of("a", 1L, "b", "x"));
            Map<String, Object> same = new HashMap<>(Map.of("a", 1L, "b", "x"));
            assertTrue(map.equals(same) && same.equals(map));
            assertTrue(map.equals(client.longs()));
            Map<String, Object> withNull = new HashMap<>(same);
            withNull.remove("b");
            withNull.put("c", null);
            for (Map<?, ?> wrong : List.of(Map.of("a", 1L), Map.of("a", 1L, "b", "y"), Map.of("a", 1, "b", "x"), withNull,
                Map.of("a", 1L, 5, "x"), Map.of("a", 1L, "b", "x", "c", 2L), Map.of("a", 1L, "c", "x"))) {
                assertFalse(wrong.toString(), map.equals(wrong));
                assertFalse(wrong.toString(), wrong.equals(map));
            }
            assertFalse(map.equals("a map") || map.equals(null));
            assertThrows(UnsupportedOperationException.class, () -> map.equals(other.map()));
            assertThrows(UnsupportedOperationException.class, map::hashCode);
        }
    }

    @Test
    public void no_read_of_a_thread_overtakes_its_change_nor_a_change_its_read() throws Exception {
        try (Server server = Server.real(); DchmClient client = server.options().readLane(true).connections(2).connect()) {
            AsyncDchmMap<Long> async = client.longs().async();
            for (long i = 1; i <= 500; i++) {
                String key = "k" + i % 7;
                async.put(key, i);
                if (i % 2 == 0) {
                    assertEquals(i, (long) client.longs().get(key));
                } else {
                    CompletableFuture<Long> read = async.get(key);
                    async.put(key, -i);
                    assertEquals(i, (long) read.join());
                }
            }
        }
    }

    @Test
    public void changes_go_over_the_first_connections_and_reads_over_the_others() throws Exception {
        List<String> got = new CopyOnWriteArrayList<>();
        try (Peer peer = new Peer((socket, in, out) -> {
            Peer.answerProbe(in, out);
            while (true) {
                byte[] body = Peer.body(in);
                got.add(socket.getPort() + " " + Peer.named(body));
                out.write(new byte[] {0, 2, (byte) (body[0] == Wire.GET ? Wire.NOW : Wire.WAS), 0});
            }
        }); DchmClient client = peer.options().readLane(true).connections(3).connect()) {
            for (int i = 0; i < 200; i++) {
                client.longs().put("k" + i, 1L);
                client.longs().get("k" + i);
            }
        }
        Map<String, List<String>> byPort = new LinkedHashMap<>();
        got.forEach(each -> byPort.computeIfAbsent(each.split(" ")[0], port -> new ArrayList<>()).add(each.split(" ")[1]));
        assertEquals("connections", 6, byPort.size());
        byPort.values().forEach(methods -> assertEquals("methods of one connection", 1, methods.stream().distinct().count()));
        Map<String, String> ports = new LinkedHashMap<>();
        got.forEach(each -> ports.merge(each.substring(each.indexOf(' ')), each.split(" ")[0],
            (one, other) -> one.equals(other) ? one : "two"));
        assertFalse("a key has one connection for each", ports.containsValue("two"));
    }

    @Test
    public void an_executor_that_refuses_changes_nothing_of_what_is_told() throws Exception {
        Executor refusing = task -> {
            throw new RejectedExecutionException("full");
        };
        try (Server server = Server.real(); DchmClient client = server.options().callbacks(refusing).connect()) {
            assertNull(client.longs().async().put("a", 1L).join());
            assertEquals(1L, (long) client.longs().async().get("a").thenApply(value -> value).join());
        }
    }

    @Test
    public void callbacks_run_on_the_executor_of_the_client() throws Exception {
        ExecutorService one = Executors.newSingleThreadExecutor(work -> new Thread(work, "the user's"));
        try (Server server = Server.real(); DchmClient client = server.options().callbacks(one).connect()) {
            List<Integer> order = new CopyOnWriteArrayList<>();
            List<CompletableFuture<Void>> calls = new ArrayList<>();
            for (int i = 0; i < 200; i++) {
                int number = i;
                calls.add(client.longs().async().put("a", 1L).thenAccept(old -> {
                    if (Thread.currentThread().getName().equals("the user's")) {
                        order.add(number);
                    }
                }));
            }
            calls.forEach(CompletableFuture::join);
            List<Integer> sorted = order.stream().sorted().toList();
            assertEquals("one thread completes them in order", sorted, order);
        } finally {
            one.shutdown();
        }
    }

    @Test
    public void an_open_outcome_names_the_method_and_the_keys() throws Exception {
        Map<String, Long> entries = new LinkedHashMap<>();
        List.of("a", "b", "c", "d").forEach(key -> entries.put(key, 1L));
        try (Server server = Server.standIn("put b failed", "merge m drop", "put d full"); DchmClient client = server.client()) {
            OutcomeOpenException merge = assertThrows(OutcomeOpenException.class, () -> client.longs().merge("m", 1L, Fn.SUM));
            assertEquals("merge [m]", merge.method() + " " + merge.keys());
            assertTrue(merge.getMessage(), merge.getMessage().startsWith("merge of \"m\": it was sent, and no reply came"));
            OutcomeOpenException all = assertThrows(OutcomeOpenException.class, () -> client.longs().putAll(entries));
            assertEquals("putAll", all.method());
            assertTrue(all.keys().toString(), all.keys().contains("b") && !all.keys().contains("a"));
        }
        try (Server server = Server.standIn("put b drop"); DchmClient client = server.client()) {
            Throwable end = assertThrows(CompletionException.class, () -> client.longs().async().putAll(entries).join()).getCause();
            assertEquals(OutcomeOpenException.class, end.getClass());
            assertTrue(((OutcomeOpenException) end).keys().contains("b"));
        }
    }

    @Test
    public void a_listener_hears_of_calls_and_connections_and_may_throw() throws Exception {
        List<String> heard = new CopyOnWriteArrayList<>();
        DchmListener listener = new DchmListener() {
            @Override
            public void ended(String method, long nanos, Throwable failure) {
                heard.add(method + (nanos > 0 ? " " : " at once ") + (failure == null ? "made" : failure.getClass().getSimpleName()));
                throw new IllegalStateException("a listener's own");
            }

            @Override
            public void connected(String server) {
                heard.add("connected");
            }

            @Override
            public void lost(String server, Throwable why) {
                heard.add("lost");
            }
        };
        try (Server server = Server.standIn("merge a drop"); DchmClient client = server.options().listener(listener).connect()) {
            assertNull(client.longs().put("a", 1L));
            assertEquals(1L, (long) client.longs().async().get("a").join());
            assertThrows(OutcomeOpenException.class, () -> client.longs().merge("a", 1L, Fn.SUM));
            client.longs().get("b");
            assertTrue(heard.toString(), Server.waitUntil(() -> heard.size() == 7));
            assertEquals(2, heard.stream().filter("connected"::equals).count());
            assertTrue(heard.toString(), heard.containsAll(List.of("put made", "get made", "merge OutcomeOpenException", "lost")));
        }
    }

    @Test
    public void a_cancelled_call_is_taken_back_or_keeps_its_place() throws Exception {
        try (Server server = Server.standIn("put a held"); DchmClient other = server.client();
             DchmClient client = server.options().inFlight(1).connect()) {
            AsyncDchmMap<Long> async = client.longs().async();
            CompletableFuture<Long> held = async.put("a", 1L);
            CompletableFuture<Long> waits = async.put("b", 1L);
            CompletableFuture<Long> last = async.put("c", 1L);
            assertTrue(waits.cancel(false));
            assertTrue("the request never comes", Server.waitUntil(() -> server.received(Wire.request(Wire.PUT, Wire.key("a"), 1L)) > 0));
            assertTrue(held.cancel(true));
            assertFalse("its place was given away", last.isDone());
            other.longs().get("release");
            assertNull(last.join());
            assertEquals(0, server.received(Wire.request(Wire.PUT, Wire.key("b"), 1L)));
            assertEquals(1L, (long) client.longs().get("a"));
        }
    }

    @Test
    public void calls_ahead_wait_in_bounded_room() throws Exception {
        try (Server server = Server.standIn("put a held"); DchmClient other = server.client();
             DchmClient client = server.options().inFlight(1).waiting(2).connect()) {
            AsyncDchmMap<Long> async = client.longs().async();
            List<CompletableFuture<Long>> calls = new ArrayList<>();
            for (String key : List.of("a", "b", "c", "d")) {
                calls.add(async.put(key, 1L));
            }
            Throwable end = assertThrows(CompletionException.class, calls.get(3)::join).getCause();
            assertEquals(NotMadeException.class, end.getClass());
            other.longs().get("release");
            calls.subList(0, 3).forEach(call -> assertNull(call.join()));
        }
    }
}
