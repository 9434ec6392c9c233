package dchm.client;

import java.util.concurrent.locks.ReentrantLock;

/** A lock that is held for moments. A thread looks for it a while: to wait and be woken takes longer. */
final class ShortLock extends ReentrantLock {
    private static final long serialVersionUID = 1;
    private static final int MOST_LOOKS = 200;

    @Override
    public void lock() {
        for (int look = 0; look < MOST_LOOKS; look++) {
            if (tryLock()) {
                return;
            }
            Thread.onSpinWait();
        }
        super.lock();
    }
}
