package dchm.client;

import java.util.ArrayList;
import java.util.List;
import java.util.Map;
import java.util.Objects;
import java.util.OptionalLong;
import java.util.concurrent.CompletableFuture;
import java.util.concurrent.CompletionException;
import java.util.function.Function;

/** The map of a server, each call of which returns at once. */
final class ServerAsyncMap<V> implements AsyncDchmMap<V> {
    private static final long ONE_THREAD = Long.MAX_VALUE;
    private final ServerClient client;
    private final Class<V> kind;
    private final Function<Wire.Reply, V> value;

    ServerAsyncMap(ServerClient client, Class<V> kind) {
        this.client = client;
        this.kind = kind;
        value = reply -> Wire.told(kind, reply.value());
    }

    private CompletableFuture<V> value(byte[] key, byte[] frame) {
        return client.send(key, frame, value);
    }

    private CompletableFuture<Boolean> isDone(byte[] key, byte[] frame) {
        return client.send(key, frame, Wire.Reply::isDone);
    }

    /** The end of a call that needs no server. */
    private static <T> CompletableFuture<T> known(T result) {
        return CompletableFuture.completedFuture(result);
    }

    private boolean isHoldable(Object value) {
        return kind.isInstance(Objects.requireNonNull(value, "a value is null")) && Wire.isHoldable(value);
    }

    @Override
    public CompletableFuture<V> get(String key) {
        byte[] bytes = Wire.keyOrNull(key);
        return bytes == null ? known(null) : value(bytes, Wire.request(Wire.GET, bytes));
    }

    @Override
    public CompletableFuture<V> getOrDefault(String key, V otherwise) {
        byte[] bytes = Wire.keyOrNull(key);
        return bytes == null ? known(otherwise) : client.send(bytes, Wire.request(Wire.GET, bytes), reply -> {
            V value = Wire.told(kind, reply.value());
            return value == null ? otherwise : value;
        });
    }

    @Override
    public CompletableFuture<Boolean> containsKey(String key) {
        byte[] bytes = Wire.keyOrNull(key);
        return bytes == null ? known(false) : isDone(bytes, Wire.request(Wire.CONTAINS_KEY, bytes));
    }

    @Override
    public CompletableFuture<V> put(String key, V value) {
        byte[] bytes = Wire.key(key);
        return value(bytes, Wire.request(Wire.PUT, bytes, Wire.checked(kind, value)));
    }

    @Override
    public CompletableFuture<V> putIfAbsent(String key, V value) {
        byte[] bytes = Wire.key(key);
        return value(bytes, Wire.request(Wire.PUT_IF_ABSENT, bytes, Wire.checked(kind, value)));
    }

    @Override
    public CompletableFuture<V> remove(String key) {
        byte[] bytes = Wire.keyOrNull(key);
        return bytes == null ? known(null) : value(bytes, Wire.request(Wire.REMOVE, bytes));
    }

    @Override
    public CompletableFuture<Boolean> remove(String key, V value) {
        byte[] bytes = Wire.keyOrNull(key);
        return bytes == null || !isHoldable(value) ? known(false)
            : isDone(bytes, Wire.request(Wire.REMOVE_IF, bytes, value));
    }

    @Override
    public CompletableFuture<V> replace(String key, V value) {
        byte[] bytes = Wire.key(key);
        return value(bytes, Wire.request(Wire.REPLACE, bytes, Wire.checked(kind, value)));
    }

    @Override
    public CompletableFuture<Boolean> replace(String key, V old, V value) {
        Wire.requireHoldable(kind, value);
        byte[] bytes = Wire.keyOrNull(key);
        return bytes == null || !isHoldable(old) ? known(false)
            : isDone(bytes, Wire.request(Wire.REPLACE_IF, bytes, old, value));
    }

    @Override
    public CompletableFuture<V> merge(String key, V value, Fn<V> function) {
        byte[] bytes = Wire.key(key);
        return value(bytes, Wire.request(Wire.MERGE, bytes, function, Wire.checked(kind, value)));
    }

    private CompletableFuture<V> computed(int method, String key, Fn<V> function, V argument) {
        byte[] bytes = Wire.key(key);
        Object sent = argument == null ? Wire.ABSENT : Wire.checked(kind, argument);
        return value(bytes, Wire.request(method, bytes, function, sent));
    }

    @Override
    public CompletableFuture<V> compute(String key, Fn<V> function, V argument) {
        return computed(Wire.COMPUTE, key, function, argument);
    }

    @Override
    public CompletableFuture<V> computeIfAbsent(String key, Fn<V> function, V argument) {
        return computed(Wire.COMPUTE_IF_ABSENT, key, function, argument);
    }

    @Override
    public CompletableFuture<V> computeIfPresent(String key, Fn<V> function, V argument) {
        return computed(Wire.COMPUTE_IF_PRESENT, key, function, argument);
    }

    @Override
    public CompletableFuture<Void> putAll(Map<? extends String, ? extends V> entries) {
        Puts puts = new Puts();
        List<CompletableFuture<?>> calls = new ArrayList<>();
        for (byte[] frame : Puts.frames(entries, kind)) {
            calls.add(value(Wire.keyBytesOf(frame), frame).handle((old, error) -> {
                if (error != null) {
                    puts.add(frame, error instanceof RuntimeException told ? told : new CompletionException(error));
                }
                return null;
            }));
        }
        return CompletableFuture.allOf(calls.toArray(new CompletableFuture<?>[0])).thenRun(puts::end);
    }

    @Override
    public CompletableFuture<Long> mappingCount() {
        return client.sendCount(reply -> (Long) reply.value());
    }

    @Override
    public CompletableFuture<Boolean> containsValue(V value) {
        return !isHoldable(value) ? known(false)
            : client.sendWhole(Wire.search(ONE_THREAD, value), reply -> reply.value() != null);
    }

    @Override
    public CompletableFuture<String> search(V value) {
        return client.sendWhole(Wire.search(ONE_THREAD, Wire.checked(kind, value)), reply -> (String) reply.value());
    }

    @Override
    public CompletableFuture<OptionalLong> reduceToLong(Fn<Long> function) {
        return client.sendWhole(Wire.reduce(function, ONE_THREAD), reply -> reply.value() == null ? OptionalLong.empty()
            : OptionalLong.of((Long) reply.value()));
    }
}
