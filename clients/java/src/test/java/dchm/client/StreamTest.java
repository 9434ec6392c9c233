package dchm.client;

import static org.junit.Assert.assertEquals;
import static org.junit.Assert.assertTrue;

import java.time.Duration;
import java.util.ArrayList;
import java.util.List;
import java.util.Set;
import java.util.concurrent.ConcurrentHashMap;
import java.util.concurrent.CountDownLatch;
import java.util.concurrent.atomic.AtomicInteger;
import java.util.concurrent.atomic.AtomicReference;
import org.junit.Test;

/** What a server gets of threads that send at a time, while its socket is full and then is not. */
public final class StreamTest {
    private static final int FILLING = 2500, THREADS = 6, EACH = 10_000, ROUNDS = 2;
    private static final int MERGE_BYTES = 10, ROW_CALLS = 64;

    /** Takes requests while it may, and answers the first alone. */
    private static final class Taker implements Peer.Served {
        final CountDownLatch mayTake = new CountDownLatch(1);
        final CountDownLatch hasFilling = new CountDownLatch(FILLING);
        final AtomicInteger merges = new AtomicInteger();
        final AtomicReference<String> fault = new AtomicReference<>();
        private final Set<String> keys = ConcurrentHashMap.newKeySet();

        @Override
        public void serve(java.net.Socket socket, java.io.DataInputStream in, java.io.OutputStream out) throws Exception {
            Peer.answerProbe(in, out);
            mayTake.await();
            while (fault.get() == null) {
                take(Peer.body(in));
            }
        }

        private void take(byte[] body) {
            if (body[0] == Wire.PUT) {
                hasFilling.countDown();
                return;
            }
            int key = body.length > 2 ? (body[1] & 0xFF) << 8 | body[2] & 0xFF : 0;
            if (body[0] != Wire.MERGE || body.length != 3 + key + MERGE_BYTES) {
                fault.set("bytes that are no request: method " + body[0] + ", " + body.length + " bytes");
            } else if (!keys.add(Peer.named(body))) {
                fault.set("it came twice: " + Peer.named(body));
            } else {
                merges.incrementAndGet();
            }
        }
    }

    @Test
    public void no_change_comes_twice_or_torn_after_a_socket_was_full() throws Exception {
        for (int round = 0; round < ROUNDS; round++) {
            Taker taker = new Taker();
            try (Peer peer = new Peer(taker);
                 DchmClient client = peer.options().inFlight(10_000_000).idle(Duration.ofMillis(100))
                     .timeout(Server.LONG).connect()) {
                AsyncDchmMap<Object> map = client.async();
                for (int i = 0; i < FILLING; i++) {
                    map.put("fill", "x".repeat(4000));
                }
                taker.mayTake.countDown();
                assertTrue("what filled the socket never comes", Server.waitUntil(() -> taker.hasFilling.getCount() == 0
                    || taker.fault.get() != null));
                sendMerges(map);
                // Less than a row waits for a reply, which never comes.
                assertTrue("not all merges come", Server.waitUntil(() -> taker.merges.get() > THREADS * EACH - ROW_CALLS
                    || taker.fault.get() != null));
                assertEquals("round " + round, null, taker.fault.get());
            }
        }
    }

    private static void sendMerges(AsyncDchmMap<Object> map) throws InterruptedException {
        List<Thread> threads = new ArrayList<>();
        for (int i = 0; i < THREADS; i++) {
            String own = "m" + i + ".";
            threads.add(Peer.inBackground(() -> {
                for (int turn = 0; turn < EACH; turn++) {
                    map.merge(own + turn, 1L, Fn.SUM.any());
                }
            }));
        }
        for (Thread thread : threads) {
            thread.join();
        }
    }
}
