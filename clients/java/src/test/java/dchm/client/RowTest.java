package dchm.client;

import static org.junit.Assert.assertEquals;
import static org.junit.Assert.assertFalse;
import static org.junit.Assert.assertNull;
import static org.junit.Assert.assertThrows;
import static org.junit.Assert.assertTrue;

import java.nio.ByteBuffer;
import java.util.ArrayList;
import java.util.List;
import java.util.concurrent.CompletableFuture;
import java.util.concurrent.CompletionException;
import org.junit.Test;

/** What is written together, and when: one row of the calls of waiting threads is under way at a time. */
public final class RowTest {
    private static final byte[] FRAME = Wire.request(Wire.REMOVE, Wire.key("a"));
    private static final byte[] READ = Wire.request(Wire.GET, Wire.key("a"));
    private final Stream calls = new Stream(0);
    private final Rows rows = new Rows();

    /** Keeps how many calls were in each row. */
    private static final class Rows {
        final List<Integer> written = new ArrayList<>();

        void write(Stream calls) {
            for (ByteBuffer row = calls.next(); row != null; row = calls.next()) {
                assertEquals("whole frames", 0, row.remaining() % FRAME.length);
                written.add(row.remaining() / FRAME.length);
                row.position(row.limit());
            }
        }
    }

    /** The oldest calls, to which replies come. */
    private List<Call> oldest(int count) {
        List<Call> answered = new ArrayList<>();
        for (int i = 0; i < count; i++) {
            Call call = calls.answered(0);
            if (call != null) {
                answered.add(call);
            }
        }
        return answered;
    }

    /** Queues a change, and writes if this thread has to. */
    private void send(boolean isAwaited) {
        send(FRAME, isAwaited);
    }

    private void send(byte[] frame, boolean isAwaited) {
        Call call = isAwaited ? Call.awaited(frame, 1) : Call.ahead(frame, 1, null);
        if (calls.add(call, 0)) {
            rows.write(calls);
        }
    }

    private void send(int count, boolean isAwaited) {
        for (int i = 0; i < count; i++) {
            send(isAwaited);
        }
    }

    /** So many calls are answered; what is due behind them is written. */
    private void answered(int count, boolean isReader) {
        List<Call> answered = oldest(count);
        assertEquals(count, answered.size());
        if (isReader) {
            calls.expectMore(answered);
        }
        if (calls.hasGathered()) {
            rows.write(calls);
        }
    }

    @Test
    public void a_call_alone_is_written_at_once() throws Exception {
        for (int i = 0; i < 3; i++) {
            send(true);
            assertEquals(i + 1, rows.written.size());
            answered(1, true);
        }
        assertEquals(List.of(1, 1, 1), rows.written);
    }

    @Test
    public void what_comes_while_a_row_is_under_way_is_the_next_row() throws Exception {
        send(4, true);
        assertEquals(List.of(1), rows.written);
        // Nobody comes back: the wait ends by itself.
        answered(1, true);
        assertEquals(List.of(1, 3), rows.written);
        send(1, true);
        answered(2, true);
        assertEquals("a part of the row is under way still", List.of(1, 3), rows.written);
        answered(1, false);
        assertEquals(List.of(1, 3, 1), rows.written);
    }

    @Test
    public void a_row_waits_for_the_threads_that_were_answered() throws Exception {
        send(4, true);
        calls.expectMore(oldest(1));
        assertEquals(List.of(1), rows.written);
        send(true);
        assertEquals("the fourth of four threads is there", List.of(1, 4), rows.written);
        assertFalse("nothing is left to write", calls.hasGathered());
    }

    @Test
    public void a_row_that_waited_in_vain_is_followed_by_rows_that_do_not_wait() throws Exception {
        send(4, true);
        answered(1, true);
        calls.expectMore(oldest(3));
        send(true);
        assertEquals("it doesn't wait for three threads", List.of(1, 3, 1), rows.written);
    }

    @Test
    public void reads_wait_for_changes_that_are_under_way_and_for_nothing_else() throws Exception {
        send(READ, true);
        send(READ, true);
        assertEquals("a read waits for no read", List.of(1, 1), rows.written);
        send(true);
        assertEquals("nor does a change", List.of(1, 1, 1), rows.written);
        send(READ, true);
        answered(2, false);
        assertEquals("the server begins it once the change is durable", List.of(1, 1, 1), rows.written);
        answered(1, false);
        assertEquals(List.of(1, 1, 1, 1), rows.written);
    }

    @Test
    public void many_reads_are_a_row_too() throws Exception {
        for (int i = 0; i < 6; i++) {
            send(READ, true);
        }
        assertEquals(List.of(1, 1, 1, 1), rows.written);
        answered(1, true);
        assertEquals(List.of(1, 1, 1, 1, 2), rows.written);
    }

    @Test
    public void a_reply_is_of_no_call_that_was_not_written() throws Exception {
        send(3, true);
        assertEquals(List.of(1), rows.written);
        assertEquals(1, oldest(2).size());
    }

    @Test
    public void calls_for_which_nobody_waits_are_gathered_and_hold_nothing_up() throws Exception {
        send(3, false);
        assertEquals(List.of(1), rows.written);
        send(true);
        assertEquals("a thread waits for the last", List.of(1, 3), rows.written);
        send(2, false);
        answered(1, true);
        assertEquals("they are written behind any reply", List.of(1, 3, 2), rows.written);
    }

    @Test
    public void a_row_has_as_many_calls_as_the_server_makes_at_a_time() throws Exception {
        send(200, true);
        assertEquals(List.of(1, 64, 64, 64), rows.written);
        answered(193, true);
        assertEquals(List.of(1, 64, 64, 64, 7), rows.written);
    }

    @Test
    public void nothing_is_written_once_the_connection_has_ended() throws Exception {
        send(2, true);
        Stream.Left left = calls.end();
        assertEquals(List.of(1, 1), List.of(left.sent().size(), left.kept().size()));
        assertFalse(calls.hasGathered());
        assertFalse(calls.add(Call.awaited(FRAME, 1), 0));
        assertEquals(List.of(1), rows.written);
    }

    @Test
    public void a_change_that_was_kept_for_the_next_row_was_not_made_if_the_connection_ends() throws Exception {
        byte[] second = Wire.request(Wire.PUT, Wire.key("b"), 1L);
        try (Server server = Server.standIn("put a stall");
             DchmClient client = server.options().timeout(Server.SHORT).connect()) {
            DchmMap<Long> map = client.longs();
            CompletableFuture<Long> first = CompletableFuture.supplyAsync(() -> map.put("a", 1L));
            assertTrue("the request never comes",
                Server.waitUntil(() -> server.received(Wire.request(Wire.PUT, Wire.key("a"), 1L)) > 0));
            NotMadeException kept = assertThrows(NotMadeException.class, () -> map.put("b", 1L));
            assertTrue(kept.getMessage(), kept.getMessage().contains("before it was sent"));
            Throwable open = assertThrows(CompletionException.class, first::join).getCause();
            assertEquals(OutcomeOpenException.class, open.getClass());
            assertEquals(0, server.received(second));
            assertNull(map.put("b", 1L));
            assertEquals(1, server.received(second));
        }
    }

    @Test
    public void threads_that_share_a_connection_lose_no_call_and_make_none_twice() throws Exception {
        int threads = 16, turns = 200;
        try (Server server = Server.real(); DchmClient client = server.client()) {
            List<CompletableFuture<Void>> runs = new ArrayList<>();
            for (int i = 0; i < threads; i++) {
                String own = "own" + i;
                runs.add(CompletableFuture.runAsync(() -> {
                    for (long turn = 1; turn <= turns; turn++) {
                        assertEquals(turn, (long) client.longs().merge(own, 1L, Fn.SUM));
                        client.longs().merge("all", 1L, Fn.SUM);
                    }
                }, task -> new Thread(task).start()));
            }
            runs.forEach(CompletableFuture::join);
            assertEquals((long) threads * turns, (long) client.longs().get("all"));
        }
    }
}
