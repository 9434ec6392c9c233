package dchm.client;

import static org.junit.Assert.assertEquals;
import static org.junit.Assert.assertFalse;
import static org.junit.Assert.assertNull;
import static org.junit.Assert.assertThrows;
import static org.junit.Assert.assertTrue;

import java.time.temporal.ChronoUnit;
import java.util.ArrayList;
import java.util.List;
import java.util.Map;
import java.util.OptionalLong;
import java.util.concurrent.CompletableFuture;
import java.util.concurrent.CompletionException;
import java.util.concurrent.ConcurrentHashMap;
import java.util.concurrent.ExecutorService;
import java.util.concurrent.Executors;
import java.util.concurrent.ForkJoinPool;
import java.util.concurrent.atomic.AtomicBoolean;
import java.util.concurrent.atomic.AtomicInteger;
import org.junit.After;
import org.junit.Before;
import org.junit.Test;

/** What the map does, against the real server. */
public final class MapTest {
    private static final String SMILE = "\ud83d\ude00", HALF = "\ud83d";
    private Server server;
    private DchmClient client;
    private DchmMap<Object> map;

    @Before
    public void start() throws Exception {
        server = Server.real();
        client = server.client();
        map = client.map();
    }

    @After
    public void stop() throws Exception {
        client.close();
        server.close();
    }

    static void inThreads(int count, Runnable work) throws InterruptedException {
        List<Thread> threads = new ArrayList<>();
        List<Throwable> failures = new ArrayList<>();
        for (int i = 0; i < count; i++) {
            Thread thread = new Thread(work);
            thread.setUncaughtExceptionHandler((which, error) -> {
                synchronized (failures) {
                    failures.add(error);
                }
            });
            thread.start();
            threads.add(thread);
        }
        for (Thread thread : threads) {
            thread.join();
        }
        assertEquals(List.of(), failures);
    }

    @Test
    public void values_are_those_of_the_map() {
        assertNull(map.put("a", 5L));
        assertEquals(5L, map.put("a", SMILE));
        assertEquals(SMILE, map.get("a"));
        assertFalse(map.replace("a", 5L, 6L));
        assertTrue(map.replace("a", SMILE, Long.MIN_VALUE));
        assertEquals(Long.MIN_VALUE, map.getOrDefault("a", null));
        assertNull(map.getOrDefault("b", null));
        assertEquals(3, map.getOrDefault("b", 3));
        assertEquals("", map.merge("t", "", Fn.<Object>constant()));
        assertEquals("x".repeat(4096), map.merge("t", "x".repeat(4096), (a, b) -> b));
        assertNull(map.put("k".repeat(4095), 1L));
        assertEquals(1L, map.get("k".repeat(4095)));
    }

    @Test
    public void functions_of_the_server_are_one_call_each() {
        assertEquals(5L, map.compute("a", Fn.SUM.any(), 5L));
        assertEquals(8L, map.computeIfPresent("a", Fn.MAX.any(), 8L));
        assertEquals(8L, map.computeIfAbsent("a", Fn.constant(), 1L));
        assertEquals(1L, map.computeIfAbsent("b", Fn.constant(), 1L));
        assertEquals(8L, map.compute("a", Fn.keep(), null));
        assertNull(map.compute("a", Fn.drop(), null));
        assertNull(map.merge("b", -1L, Fn.SUM_NONZERO.any()));
        assertEquals(0, map.mappingCount());
    }

    @Test
    public void the_whole_map_is_counted_searched_and_folded() {
        assertTrue(map.isEmpty());
        assertEquals(OptionalLong.empty(), map.reduceToLong(Fn.SUM));
        map.putAll(Map.of("c", 1L, "d", 2L, "e", 2L));
        assertEquals(3, map.size());
        assertEquals("d", map.search(2L));
        assertNull(map.search("2"));
        assertTrue(map.containsValue(1L));
        assertFalse(map.containsValue(1));
        assertEquals(OptionalLong.of(5), map.reduceToLong(Fn.SUM));
        map.put("t", "x");
        assertThrows(ClassCastException.class, () -> map.reduceToLong(Fn.SUM));
        assertThrows(RefusedException.class, () -> map.reduceToLong(Fn.SUM_EXACT));
    }

    @Test
    public void what_no_server_can_hold_is_refused_as_a_change_and_not_found_as_a_read() {
        for (String key : List.of(HALF, "a" + HALF, SMILE.substring(1), HALF + "a", "k".repeat(4096),
            "\u00e9".repeat(2048))) {
            assertThrows(IllegalArgumentException.class, () -> map.put(key, 1L));
            assertThrows(IllegalArgumentException.class, () -> map.async().put(key, 1L));
            assertNull(map.get(key));
            assertNull(map.remove(key));
            assertFalse(map.remove(key, 1L));
            assertFalse(map.containsKey(key));
        }
        for (String text : List.of(HALF, "\u00e9".repeat(2049), "x".repeat(4097))) {
            assertThrows(IllegalArgumentException.class, () -> map.put("a", text));
            assertThrows(IllegalArgumentException.class, () -> map.replace("a", "x", text));
            assertFalse(map.remove("a", text));
            assertFalse(map.containsValue(text));
        }
        assertNull(map.get(5));
        assertFalse(map.containsKey(5));
        assertEquals(0, map.mappingCount());
    }

    @Test
    public void a_value_of_another_class_says_what_to_write() {
        ClassCastException error = assertThrows(ClassCastException.class, () -> map.put("a", 5));
        assertTrue(error.getMessage(), error.getMessage().contains("write 5L"));
        @SuppressWarnings({"unchecked", "rawtypes"})
        Map<String, Object> raw = (Map) client.longs();
        error = assertThrows(ClassCastException.class, () -> raw.put("a", 5));
        assertTrue(error.getMessage(), error.getMessage().contains("write 5L"));
        assertThrows(ClassCastException.class, () -> raw.put("a", "x"));
        assertThrows(ClassCastException.class, () -> map.merge("a", 5, Fn.SUM.any()));
        assertEquals(0, map.mappingCount());
    }

    @Test
    public void a_value_in_the_map_of_another_class_is_told_after_the_change() {
        map.put("t", "x");
        assertThrows(ClassCastException.class, () -> client.longs().get("t"));
        ClassCastException error = assertThrows(ClassCastException.class, () -> client.longs().put("t", 7L));
        assertTrue(error.getMessage(), error.getMessage().contains("was made"));
        assertEquals(7L, map.get("t"));
    }

    @Test
    public void null_is_an_error_as_in_a_hash_map() {
        ConcurrentHashMap<String, Object> peer = new ConcurrentHashMap<>();
        for (Map<String, Object> each : List.<Map<String, Object>>of(map, peer)) {
            assertThrows(NullPointerException.class, () -> each.get(null));
            assertThrows(NullPointerException.class, () -> each.containsKey(null));
            assertThrows(NullPointerException.class, () -> each.put(null, 1L));
            assertThrows(NullPointerException.class, () -> each.put("a", null));
            assertThrows(NullPointerException.class, () -> each.putIfAbsent("a", null));
            assertThrows(NullPointerException.class, () -> each.replace("a", null));
            assertThrows(NullPointerException.class, () -> each.replace("a", null, 1L));
            assertThrows(NullPointerException.class, () -> each.replace("a", 1L, null));
            assertThrows(NullPointerException.class, () -> each.remove(null));
            assertThrows(NullPointerException.class, () -> each.remove(null, 1L));
            assertFalse(each.remove("a", null));
            assertThrows(NullPointerException.class, () -> each.containsValue(null));
            assertThrows(NullPointerException.class, () -> each.merge("a", 1L, null));
            assertThrows(NullPointerException.class, () -> each.merge("a", null, (old, add) -> add));
            assertThrows(NullPointerException.class, () -> each.compute("a", null));
            assertThrows(NullPointerException.class, () -> each.computeIfAbsent("a", null));
        }
        assertThrows(NullPointerException.class, () -> map.async().put("a", null));
        assertEquals(0, map.mappingCount());
    }

    @Test
    public void a_fault_is_the_exception_of_java() {
        map.put("n", Long.MAX_VALUE);
        map.put("t", "x".repeat(4096));
        assertThrows(ArithmeticException.class, () -> map.merge("n", 1L, Fn.SUM_EXACT.any()));
        assertThrows(ClassCastException.class, () -> map.merge("t", 1L, Fn.SUM.any()));
        assertThrows(IllegalArgumentException.class, () -> map.merge("t", "y", Fn.CONCAT.any()));
        assertEquals(Long.MAX_VALUE, map.get("n"));
        assertEquals(Long.MIN_VALUE, map.merge("n", 1L, Fn.SUM.any()));
        assertEquals("x".repeat(4096), map.get("t"));
    }

    @Test
    public void what_needs_iteration_is_not_there() {
        assertThrows(UnsupportedOperationException.class, map::keySet);
        assertThrows(UnsupportedOperationException.class, map::values);
        assertThrows(UnsupportedOperationException.class, map::entrySet);
        assertThrows(UnsupportedOperationException.class, map::clear);
        assertThrows(UnsupportedOperationException.class, () -> map.forEach((key, value) -> { }));
        assertThrows(UnsupportedOperationException.class, () -> map.replaceAll((key, value) -> value));
        assertEquals("DchmMap<Object>", map.toString());
    }

    @Test
    public void functions_of_the_caller_count_exactly_beside_others() throws Exception {
        DchmMap<Long> longs = client.longs();
        inThreads(8, () -> {
            for (int i = 0; i < 50; i++) {
                longs.merge("a", 1L, (old, one) -> old + one);
                longs.compute("b", (key, old) -> old == null ? 1 : old + 1);
                longs.merge("c", 1L, Fn.SUM);
            }
        });
        assertEquals(List.of(400L, 400L, 400L), List.of(longs.get("a"), longs.get("b"), longs.get("c")));
    }

    @Test
    public void many_threads_share_each_choice_of_connections() throws Exception {
        for (DchmClient.Builder options : List.of(server.options().inFlight(3), server.options().connections(3),
            server.options().connections(2).readLane(true), server.options().inFlight(1))) {
            try (DchmClient other = options.connect()) {
                DchmMap<Long> longs = other.longs();
                inThreads(8, () -> {
                    for (int i = 0; i < 25; i++) {
                        longs.merge("k" + i, 1L, Fn.SUM);
                        longs.get("k" + i);
                    }
                });
            }
        }
        for (int i = 0; i < 25; i++) {
            assertEquals(32L, map.get("k" + i));
        }
    }

    @Test
    public void a_client_keeps_the_options_that_it_was_connected_with() {
        DchmClient.Builder options = server.options().timeout(ChronoUnit.FOREVER.getDuration());
        try (DchmClient first = options.connect();
             DchmClient second = options.connections(4).readLane(true).connect()) {
            for (int i = 0; i < 25; i++) {
                assertNull(first.longs().put("k" + i, (long) i));
                assertEquals((long) i, (long) second.longs().get("k" + i));
            }
        }
    }

    @Test
    public void what_is_sent_ahead_is_answered_in_order_and_never_stalls() {
        try (DchmClient other = server.options().inFlight(4096).connect()) {
            AsyncDchmMap<String> texts = other.texts().async();
            List<CompletableFuture<String>> calls = new ArrayList<>();
            for (int i = 0; i < 3000; i++) {
                calls.add(texts.put("a", i + "x".repeat(4000)));
            }
            for (int i = 1; i < 3000; i++) {
                assertEquals(i - 1 + "x".repeat(4000), calls.get(i).join());
            }
        }
    }

    @Test
    public void callbacks_may_send_while_all_places_are_taken() {
        try (DchmClient other = server.options().inFlight(2).connect()) {
            AsyncDchmMap<Long> async = other.longs().async();
            List<CompletableFuture<Long>> chains = new ArrayList<>();
            for (int i = 0; i < 50; i++) {
                String key = "k" + i;
                chains.add(async.put(key, 1L).thenCompose(old -> async.merge(key, 1L, Fn.SUM))
                    .thenCompose(now -> async.get(key)));
            }
            chains.forEach(chain -> assertEquals(2L, (long) chain.join()));
        }
    }

    @Test
    public void a_callback_may_wait_for_each_kind_of_call() throws Exception {
        AsyncDchmMap<Object> async = map.async();
        for (int i = 0; i < 20; i++) {
            Object found = async.put("a", 1L).thenApply(old -> {
                map.putAll(Map.of("c", 1L, "d", 2L));
                return List.of(map.get("a"), map.size(), async.get("c").join(), async.mappingCount().join());
            }).join();
            assertEquals(List.of(1L, 3, 1L, 3L), found);
        }
    }

    @Test
    public void a_callback_of_an_executor_may_wait() {
        try (DchmClient other = server.options().callbacks(ForkJoinPool.commonPool()).connect()) {
            DchmMap<Long> longs = other.longs();
            assertEquals(1L, (long) longs.async().put("a", 1L).thenApply(old -> longs.get("a")).join());
        }
        // Nor does it wait for the executor's only thread, on which it runs.
        ExecutorService alone = Executors.newSingleThreadExecutor();
        try (DchmClient other = server.options().callbacks(alone).connect()) {
            DchmMap<Long> longs = other.longs();
            longs.async().put("b", 1L).thenAccept(old -> longs.putAll(Map.of("c", 2L, "d", 3L))).join();
            assertEquals(3L, (long) longs.get("d"));
        } finally {
            alone.shutdown();
        }
    }

    @Test
    public void a_thread_that_is_interrupted_sends_nothing_and_breaks_nothing() throws Exception {
        CompletableFuture<Object> ahead = map.async().put("a", 1L);
        Thread.currentThread().interrupt();
        assertThrows(NotMadeException.class, () -> map.put("a", 2L));
        assertThrows(NotMadeException.class, () -> map.get("a"));
        assertThrows(NotMadeException.class, server::client);
        assertTrue(Thread.interrupted());
        assertNull(ahead.join());
        assertEquals(1L, map.get("a"));
    }

    @Test
    public void interrupts_end_calls_with_what_is_true_of_them() throws Exception {
        AtomicInteger made = new AtomicInteger();
        AtomicInteger open = new AtomicInteger();
        AtomicBoolean goesOn = new AtomicBoolean(true);
        List<Thread> threads = new ArrayList<>();
        for (int i = 0; i < 4; i++) {
            threads.add(Peer.inBackground(() -> {
                while (goesOn.get()) {
                    try {
                        client.longs().merge("a", 1L, Fn.SUM);
                        made.incrementAndGet();
                    } catch (OutcomeOpenException error) {
                        open.incrementAndGet();
                    } catch (NotMadeException error) {
                        // It isn't counted.
                    }
                    Thread.interrupted();
                }
            }));
        }
        for (int i = 0; i < 300; i++) {
            threads.get(i % 4).interrupt();
            client.longs().get("a");
        }
        goesOn.set(false);
        for (Thread thread : threads) {
            thread.join();
        }
        long counted = client.longs().get("a");
        assertTrue(made + " were made, " + open + " are open, counted: " + counted,
            counted >= made.get() && counted <= made.get() + open.get());
    }

    @Test
    public void a_fault_completes_a_future() {
        map.put("t", "x");
        CompletableFuture<Long> merge = client.longs().async().merge("t", 1L, Fn.SUM);
        CompletionException error = assertThrows(CompletionException.class, merge::join);
        assertEquals(ClassCastException.class, error.getCause().getClass());
        assertEquals("xy", client.texts().async().merge("t", "y", Fn.CONCAT).join());
        assertEquals(Boolean.TRUE, client.texts().async().replace("t", "xy", "z").join());
        assertEquals(Boolean.TRUE, client.texts().async().remove("t", "z").join());
        assertEquals(Boolean.FALSE, client.async().containsKey("t").join());
    }

    @Test
    public void a_closed_client_says_so() {
        client.close();
        assertThrows(IllegalStateException.class, () -> map.get("a"));
        assertThrows(IllegalStateException.class, () -> map.put("a", 1L));
        assertThrows(IllegalStateException.class, map::size);
        assertThrows(IllegalStateException.class, () -> map.async().get("a"));
    }
}
