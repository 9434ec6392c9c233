package dchm.client;

/** Tells a listener, whatever that throws. */
final class Listening {
    private final DchmListener listener;
    private final Completions completions;
    private final String place;

    Listening(DchmListener listener, Completions completions, String place) {
        this.listener = listener;
        this.completions = completions;
        this.place = place;
    }

    private static void told(Runnable telling) {
        try {
            telling.run();
        } catch (RuntimeException error) {
            // What a listener throws is no end of a call.
        }
    }

    void ended(byte[] frame, long begin, Throwable failure) {
        long nanos = System.nanoTime() - begin;
        told(() -> listener.ended(Wire.methodOf(frame), nanos, failure));
    }

    void heard(Lane.News news) {
        completions.add(() -> told(() -> {
            if (news.isUp()) {
                listener.connected(place);
            } else {
                listener.lost(place, news.why());
            }
        }));
    }
}
