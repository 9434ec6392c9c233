package dchm.client;

import java.util.Map;
import java.util.OptionalLong;
import java.util.concurrent.Callable;
import java.util.concurrent.CompletableFuture;

/** An asynchronous map whose calls have been made when they return, by another map. */
record ImmediateMap<V>(DchmMap<V> map) implements AsyncDchmMap<V> {
    private static <T> CompletableFuture<T> made(Callable<T> call) {
        try {
            return CompletableFuture.completedFuture(call.call());
        } catch (Exception error) {
            return CompletableFuture.failedFuture(error);
        }
    }

    @Override
    public CompletableFuture<V> get(String key) {
        return made(() -> map.get(key));
    }

    @Override
    public CompletableFuture<V> getOrDefault(String key, V otherwise) {
        return made(() -> map.getOrDefault(key, otherwise));
    }

    @Override
    public CompletableFuture<Boolean> containsKey(String key) {
        return made(() -> map.containsKey(key));
    }

    @Override
    public CompletableFuture<V> put(String key, V value) {
        return made(() -> map.put(key, value));
    }

    @Override
    public CompletableFuture<V> putIfAbsent(String key, V value) {
        return made(() -> map.putIfAbsent(key, value));
    }

    @Override
    public CompletableFuture<V> remove(String key) {
        return made(() -> map.remove(key));
    }

    @Override
    public CompletableFuture<Boolean> remove(String key, V value) {
        return made(() -> map.remove(key, value));
    }

    @Override
    public CompletableFuture<V> replace(String key, V value) {
        return made(() -> map.replace(key, value));
    }

    @Override
    public CompletableFuture<Boolean> replace(String key, V old, V value) {
        return made(() -> map.replace(key, old, value));
    }

    @Override
    public CompletableFuture<V> merge(String key, V value, Fn<V> function) {
        return made(() -> map.merge(key, value, function));
    }

    @Override
    public CompletableFuture<V> compute(String key, Fn<V> function, V argument) {
        return made(() -> map.compute(key, function, argument));
    }

    @Override
    public CompletableFuture<V> computeIfAbsent(String key, Fn<V> function, V argument) {
        return made(() -> map.computeIfAbsent(key, function, argument));
    }

    @Override
    public CompletableFuture<V> computeIfPresent(String key, Fn<V> function, V argument) {
        return made(() -> map.computeIfPresent(key, function, argument));
    }

    @Override
    public CompletableFuture<Void> putAll(Map<? extends String, ? extends V> entries) {
        return made(() -> {
            map.putAll(entries);
            return null;
        });
    }

    @Override
    public CompletableFuture<Long> mappingCount() {
        return made(() -> map.mappingCount());
    }

    @Override
    public CompletableFuture<Boolean> containsValue(V value) {
        return made(() -> map.containsValue(value));
    }

    @Override
    public CompletableFuture<String> search(V value) {
        return made(() -> map.search(value));
    }

    @Override
    public CompletableFuture<OptionalLong> reduceToLong(Fn<Long> function) {
        return made(() -> map.reduceToLong(function));
    }
}
