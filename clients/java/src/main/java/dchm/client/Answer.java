package dchm.client;

import java.util.function.Function;

/** The future of a call, which is completed where callbacks may run. */
final class Answer<T> extends Result<T> implements Call.Owner, Runnable {
    private final Function<Wire.Reply, T> result;
    private final Completions completions;
    private final Listening listening;
    private final long begin;
    private Call call;
    private Driver driver;

    Answer(Function<Wire.Reply, T> result, Completions completions, Listening listening, long begin) {
        this.result = result;
        this.completions = completions;
        this.listening = listening;
        this.begin = begin;
    }

    /** Says which call it is of. */
    Call of(Call made, Driver sentBy) {
        call = made;
        driver = sentBy;
        return made;
    }

    @Override
    public void ended() {
        completions.add(this);
    }

    /** Completes it. */
    @Override
    public void run() {
        T value;
        try {
            value = result.apply(Told.checked(call.reply(), call.frame));
        } catch (Throwable error) {
            heard(error);
            completeExceptionally(error);
            return;
        }
        heard(null);
        complete(value);
    }

    private void heard(Throwable failure) {
        if (listening != null) {
            listening.ended(call.frame, begin, failure);
        }
    }

    /**
     * Cancels the future. A call of which nothing was sent isn't made then; one that was sent may be.
     *
     * @param mayInterrupt of no effect
     * @return whether the future is cancelled now
     */
    @Override
    public boolean cancel(boolean mayInterrupt) {
        boolean isCancelled = super.cancel(mayInterrupt);
        if (isCancelled) {
            driver.giveUp(call, "cancelled");
        }
        return isCancelled;
    }
}
