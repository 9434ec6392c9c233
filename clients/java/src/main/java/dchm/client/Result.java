package dchm.client;

import java.util.concurrent.CompletableFuture;
import java.util.concurrent.ExecutionException;
import java.util.concurrent.TimeUnit;
import java.util.concurrent.TimeoutException;

/**
 * A future for which a callback may wait: others are completed meanwhile. What is derived from such a future is one too.
 */
class Result<T> extends CompletableFuture<T> {
    @Override
    public <U> CompletableFuture<U> newIncompleteFuture() {
        return new Result<>();
    }

    @Override
    public T join() {
        Completions left = isDone() ? null : Completions.leave();
        try {
            return super.join();
        } finally {
            Completions.comeBack(left);
        }
    }

    @Override
    public T get() throws InterruptedException, ExecutionException {
        Completions left = isDone() ? null : Completions.leave();
        try {
            return super.get();
        } finally {
            Completions.comeBack(left);
        }
    }

    @Override
    public T get(long most, TimeUnit unit) throws InterruptedException, ExecutionException, TimeoutException {
        Completions left = isDone() ? null : Completions.leave();
        try {
            return super.get(most, unit);
        } finally {
            Completions.comeBack(left);
        }
    }
}
