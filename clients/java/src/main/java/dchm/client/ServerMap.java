package dchm.client;

import java.util.ArrayDeque;
import java.util.Collection;
import java.util.Map;
import java.util.Objects;
import java.util.OptionalLong;
import java.util.Set;
import java.util.function.BiFunction;

/** The map of a server, each call of which waits for its reply. */
final class ServerMap<V> implements DchmMap<V> {
    private static final long ONE_THREAD = Long.MAX_VALUE;
    private final ServerClient client;
    private final Class<V> kind;

    ServerMap(ServerClient client, Class<V> kind) {
        this.client = client;
        this.kind = kind;
    }

    @Override
    public AsyncDchmMap<V> async() {
        return new ServerAsyncMap<>(client, kind);
    }

    private V valueOf(byte[] key, byte[] frame) {
        return Wire.told(kind, client.ask(key, frame).value());
    }

    private boolean isHoldable(Object value) {
        return kind.isInstance(value) && Wire.isHoldable(value);
    }

    // ---- the methods of a key

    @Override
    public V get(Object key) {
        byte[] bytes = Wire.keyOrNull(key);
        return bytes == null ? null : valueOf(bytes, Wire.request(Wire.GET, bytes));
    }

    @Override
    public V getOrDefault(Object key, V otherwise) {
        V value = get(key);
        return value == null ? otherwise : value;
    }

    @Override
    public boolean containsKey(Object key) {
        byte[] bytes = Wire.keyOrNull(key);
        return bytes != null && client.ask(bytes, Wire.request(Wire.CONTAINS_KEY, bytes)).isDone();
    }

    @Override
    public V put(String key, V value) {
        byte[] bytes = Wire.key(key);
        return valueOf(bytes, Wire.request(Wire.PUT, bytes, Wire.checked(kind, value)));
    }

    @Override
    public V putIfAbsent(String key, V value) {
        byte[] bytes = Wire.key(key);
        return valueOf(bytes, Wire.request(Wire.PUT_IF_ABSENT, bytes, Wire.checked(kind, value)));
    }

    @Override
    public V remove(Object key) {
        byte[] bytes = Wire.keyOrNull(key);
        return bytes == null ? null : valueOf(bytes, Wire.request(Wire.REMOVE, bytes));
    }

    @Override
    public boolean remove(Object key, Object value) {
        byte[] bytes = Wire.keyOrNull(key);
        return bytes != null && isHoldable(value)
            && client.ask(bytes, Wire.request(Wire.REMOVE_IF, bytes, value)).isDone();
    }

    @Override
    public V replace(String key, V value) {
        byte[] bytes = Wire.key(key);
        return valueOf(bytes, Wire.request(Wire.REPLACE, bytes, Wire.checked(kind, value)));
    }

    @Override
    public boolean replace(String key, V old, V value) {
        Wire.requireHoldable(kind, value);
        byte[] bytes = Wire.keyOrNull(key);
        if (bytes == null || !isHoldable(Objects.requireNonNull(old, "a value is null"))) {
            return false;
        }
        byte[] frame = Wire.request(Wire.REPLACE_IF, bytes, old, Wire.checked(kind, value));
        return client.ask(bytes, frame).isDone();
    }

    @Override
    public V merge(String key, V value, BiFunction<? super V, ? super V, ? extends V> function) {
        if (!(function instanceof Fn<?> named)) {
            return DchmMap.super.merge(key, value, function);
        }
        byte[] bytes = Wire.key(key);
        return valueOf(bytes, Wire.request(Wire.MERGE, bytes, named, Wire.checked(kind, value)));
    }

    private V computed(int method, String key, Fn<V> function, V argument) {
        byte[] bytes = Wire.key(key);
        Object sent = argument == null ? Wire.ABSENT : Wire.checked(kind, argument);
        return valueOf(bytes, Wire.request(method, bytes, function, sent));
    }

    @Override
    public V compute(String key, Fn<V> function, V argument) {
        return computed(Wire.COMPUTE, key, function, argument);
    }

    @Override
    public V computeIfAbsent(String key, Fn<V> function, V argument) {
        return computed(Wire.COMPUTE_IF_ABSENT, key, function, argument);
    }

    @Override
    public V computeIfPresent(String key, Fn<V> function, V argument) {
        return computed(Wire.COMPUTE_IF_PRESENT, key, function, argument);
    }

    @Override
    public void putAll(Map<? extends String, ? extends V> entries) {
        Puts puts = new Puts();
        ArrayDeque<ServerClient.Ahead> ahead = new ArrayDeque<>();
        for (byte[] frame : Puts.frames(entries, kind)) {
            if (ahead.size() == client.mostAhead()) {
                await(ahead.poll(), puts);
            }
            ahead.add(client.send(Wire.keyBytesOf(frame), frame));
        }
        ahead.forEach(put -> await(put, puts));
        puts.end();
    }

    private void await(ServerClient.Ahead put, Puts puts) {
        try {
            Wire.told(kind, put.await().value());
        } catch (RuntimeException error) {
            puts.add(put.call().frame, error);
        }
    }

    // ---- the whole map

    @Override
    public long mappingCount() {
        return (Long) client.askCount().value();
    }

    @Override
    public int size() {
        return (int) Math.min(mappingCount(), Integer.MAX_VALUE);
    }

    @Override
    public boolean isEmpty() {
        return mappingCount() == 0;
    }

    @Override
    public boolean containsValue(Object value) {
        return isHoldable(Objects.requireNonNull(value, "a value is null"))
            && client.askWhole(Wire.search(ONE_THREAD, value)).value() != null;
    }

    @Override
    public String search(V value) {
        return (String) client.askWhole(Wire.search(ONE_THREAD, Wire.checked(kind, value))).value();
    }

    @Override
    public OptionalLong reduceToLong(Fn<Long> function) {
        Long value = (Long) client.askWhole(Wire.reduce(function, ONE_THREAD)).value();
        return value == null ? OptionalLong.empty() : OptionalLong.of(value);
    }

    // ---- what isn't there

    private static UnsupportedOperationException noIteration() {
        return new UnsupportedOperationException("the protocol has no iteration");
    }

    @Override
    public Set<String> keySet() {
        throw noIteration();
    }

    @Override
    public Collection<V> values() {
        throw noIteration();
    }

    @Override
    public Set<Map.Entry<String, V>> entrySet() {
        throw noIteration();
    }

    @Override
    public void clear() {
        throw noIteration();
    }

    // ---- what is asked of any object

    /** Whether the other map has the same mappings: it is gone through, since this one can't be. */
    @Override
    public boolean equals(Object other) {
        if (other instanceof ServerMap<?> server && server.client == client) {
            return true;
        }
        if (!(other instanceof Map<?, ?> map)) {
            return false;
        }
        Set<? extends Map.Entry<?, ?>> entries = map.entrySet();
        return mappingCount() == entries.size() && entries.stream().allMatch(this::hasEntry);
    }

    private boolean hasEntry(Map.Entry<?, ?> entry) {
        byte[] bytes = entry.getKey() == null || entry.getValue() == null ? null : Wire.keyOrNull(entry.getKey());
        return bytes != null && entry.getValue().equals(client.ask(bytes, Wire.request(Wire.GET, bytes)).value());
    }

    @Override
    public int hashCode() {
        throw noIteration();
    }

    @Override
    public String toString() {
        return "DchmMap<" + kind.getSimpleName() + ">";
    }
}
