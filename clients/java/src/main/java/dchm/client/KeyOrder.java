package dchm.client;

import java.util.Arrays;
import java.util.concurrent.atomic.AtomicIntegerArray;

/**
 * Over which connection a thread's calls of a key go, if reads have their own: where an earlier one of that thread and
 * key is under way, so that none overtakes another. Keys share places, which costs no more than a wait.
 */
final class KeyOrder {
    private static final int PLACES = 64;
    private final AtomicIntegerArray underWay = new AtomicIntegerArray(PLACES);
    private final boolean[] isOfReads = new boolean[PLACES];

    private static int placeOf(byte[] key) {
        return Math.floorMod(Arrays.hashCode(key), PLACES);
    }

    /** Whether the call goes over the connection of reads. Its own thread alone asks. */
    boolean isOfReads(byte[] key, boolean isRead) {
        int place = placeOf(key);
        return underWay.get(place) == 0 ? isRead : isOfReads[place];
    }

    /** The same, for a call that is under way from here on. */
    boolean begin(byte[] key, boolean isRead) {
        int place = placeOf(key);
        boolean goesWithReads = isOfReads(key, isRead);
        isOfReads[place] = goesWithReads;
        underWay.incrementAndGet(place);
        return goesWithReads;
    }

    /** The call has ended. */
    void end(byte[] key) {
        underWay.decrementAndGet(placeOf(key));
    }
}
