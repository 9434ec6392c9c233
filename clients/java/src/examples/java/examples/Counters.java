package examples;

import dchm.client.DchmClient;
import dchm.client.DchmMap;
import dchm.client.NotMadeException;
import dchm.client.OutcomeOpenException;

/**
 * A count to which many threads add exactly once each, also if the server is killed and started again: Counters PORT.
 * They add until the standard input ends. `added KEY` is printed of each.
 */
public final class Counters {
    private static final int WRITERS = 8;
    private static final int PAUSE_MILLIS = 20;
    private final DchmMap<Long> map;
    private final String key;
    private long last;

    private Counters(DchmMap<Long> map, String key) throws InterruptedException {
        this.map = map;
        this.key = key;
        last = start();
    }

    private long start() throws InterruptedException {
        while (true) {
            try {
                Long old = map.putIfAbsent(key, 0L);
                return old == null ? 0 : old;
            } catch (OutcomeOpenException | NotMadeException error) {
                Thread.sleep(PAUSE_MILLIS);
            }
        }
    }

    /**
     * Adds one. A merge by SUM must not be repeated if its outcome is open. So the key has this writer alone, which
     * knows its value: a conditional change from it to the next may be repeated, since no value comes back.
     */
    private void add() throws InterruptedException {
        boolean isOpen = false;
        while (true) {
            try {
                if (!map.replace(key, last, last + 1) && !isOpen) {
                    throw new IllegalStateException("another writer has " + key);
                }
                // If it wasn't done after an open outcome, the one before was.
                last++;
                return;
            } catch (OutcomeOpenException error) {
                isOpen = true;
                Thread.sleep(PAUSE_MILLIS);
            } catch (NotMadeException error) {
                Thread.sleep(PAUSE_MILLIS);
            }
        }
    }

    /**
     * Adds.
     *
     * @param words the port of the server
     * @throws Exception if it can't go on
     */
    public static void main(String[] words) throws Exception {
        try (DchmClient client = DchmClient.connect(Integer.parseInt(words[0]))) {
            Workers.run(WRITERS, (number, goesOn) -> {
                String key = "count:hits:" + number;
                Counters counter = new Counters(client.longs(), key);
                while (goesOn.getAsBoolean()) {
                    counter.add();
                    System.out.println("added " + key);
                }
            });
        }
    }
}
