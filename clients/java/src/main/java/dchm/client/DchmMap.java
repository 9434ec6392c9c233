package dchm.client;

import java.util.Comparator;
import java.util.Map;
import java.util.OptionalLong;
import java.util.concurrent.ConcurrentMap;
import java.util.function.BiFunction;

/**
 * The map of a server as a {@link ConcurrentMap}. A change returns once it is durable.
 *
 * <p>What a call throws, unless its own text says more:
 * <ul>
 * <li>NullPointerException if a key, a value or a function is null. Nothing was sent.
 * <li>IllegalArgumentException if a change names a key or a text that no server can hold. Nothing was sent. A read or
 *     a removal of such a key finds nothing, and nothing is sent.
 * <li>ClassCastException if a value is of another class: write {@code 5L}, not {@code 5}. Nothing was sent. If the
 *     map's old or new value is of another class, the call was made, and its text says so.
 * <li>{@link RefusedException} if the server refused. Nothing changed.
 * <li>{@link NotMadeException} if nothing was sent, or a read got no reply. Nothing changed.
 * <li>{@link OutcomeOpenException} if a change was sent and got no reply. Its outcome is open.
 * </ul>
 *
 * <p>There is no iteration. {@code keySet}, {@code values}, {@code entrySet}, {@code forEach}, {@code replaceAll},
 * {@code clear} and {@code hashCode} throw UnsupportedOperationException. {@code equals} counts, and gets each entry of the
 * other map; it throws the same if that is a map of another client.
 *
 * <p>For the tests of a program this is a map without a server:
 * {@code class Fake<V> extends ConcurrentHashMap<String, V> implements DchmMap<V>}.
 *
 * @param <V> the class of the values: Long, String, or Object for both
 */
public interface DchmMap<V> extends ConcurrentMap<String, V> {
    /**
     * The same map, whose calls return at once. Nothing is sent. Of a map that doesn't override it, such as one of a
     * test, each call has been made when it returns.
     *
     * @return the asynchronous map
     */
    default AsyncDchmMap<V> async() {
        return new ImmediateMap<>(this);
    }

    // ---- the methods of a key

    /**
     * The value of a key.
     *
     * @param key the key
     * @return the value, or null if there is none
     */
    @Override
    V get(Object key);

    /**
     * The value of a key, or another one. It is a Get, so the other value may be null or any value.
     *
     * @param key the key
     * @param otherwise what is returned if the key has no value
     * @return the value
     */
    @Override
    V getOrDefault(Object key, V otherwise);

    /**
     * Whether a key has a value.
     *
     * @param key the key
     * @return whether it has one
     */
    @Override
    boolean containsKey(Object key);

    /**
     * Maps a key to a value.
     *
     * @param key the key
     * @param value the value
     * @return the value before, or null
     */
    @Override
    V put(String key, V value);

    /**
     * Maps a key to a value if it has none. If nobody else uses the value, it may be repeated after an open outcome:
     * null or the value itself says that it was made.
     *
     * @param key the key
     * @param value the value
     * @return the value before, or null if the change was made
     */
    @Override
    V putIfAbsent(String key, V value);

    /**
     * Unmaps a key.
     *
     * @param key the key
     * @return the value before, or null
     */
    @Override
    V remove(Object key);

    /**
     * Unmaps a key if it has this value.
     *
     * @param key the key
     * @param value the value; with null, or one that no server can hold, nothing is sent
     * @return whether it was done
     */
    @Override
    boolean remove(Object key, Object value);

    /**
     * Maps a key to another value if it has one.
     *
     * @param key the key
     * @param value the new value
     * @return the value before, or null if there was none
     */
    @Override
    V replace(String key, V value);

    /**
     * Maps a key to another value if it has the old one. If the old value never comes back, it may be repeated after an
     * open outcome.
     *
     * @param key the key
     * @param old the old value; with one that no server can hold, nothing is sent
     * @param value the new value
     * @return whether it was done
     */
    @Override
    boolean replace(String key, V old, V value);

    /**
     * Puts each entry, sent ahead. It is not one change: if it throws, each entry may have been put or not, unless one
     * is null or can't be held, and then nothing was sent.
     *
     * @param entries the entries
     * @throws OutcomeOpenException if entries are open, whatever came of the others; it names them
     */
    @Override
    void putAll(Map<? extends String, ? extends V> entries);

    /**
     * Merges a value into that of a key. With an {@link Fn} it is one call of the server. Any other function is applied
     * here, between a Get and a conditional change, again and again until no other change comes between: so it may be
     * called more than once.
     *
     * @param key the key
     * @param value the value, and the new one if the key has none
     * @param function what gives the new value; null unmaps the key
     * @return the new value, or null
     * @throws ArithmeticException if a sum by SUM_EXACT has more than 64 bits. Nothing changed.
     * @throws IllegalArgumentException also if a text would be too long. Nothing changed.
     * @throws ClassCastException also if the function doesn't take the old value. Nothing changed.
     */
    @Override
    default V merge(String key, V value, BiFunction<? super V, ? super V, ? extends V> function) {
        return ConcurrentMap.super.merge(key, value, function);
    }

    /**
     * Maps a key to what the server's function gives of the old value and the argument. If the key has no value, it is
     * the argument; DROP and KEEP give nothing.
     *
     * @param key the key
     * @param function the function
     * @param argument its argument; null for a function that needs none
     * @return the new value, or null
     * @throws ArithmeticException if a sum by SUM_EXACT has more than 64 bits. Nothing changed.
     */
    default V compute(String key, Fn<V> function, V argument) {
        return compute(key, (same, old) -> function.applied(old, argument));
    }

    /**
     * As {@link #compute(String, Fn, Object)}, if the key has no value.
     *
     * @param key the key
     * @param function the function
     * @param argument its argument; null for a function that needs none
     * @return the value that the key has now, or null
     */
    default V computeIfAbsent(String key, Fn<V> function, V argument) {
        return computeIfAbsent(key, same -> function.applied(null, argument));
    }

    /**
     * As {@link #compute(String, Fn, Object)}, if the key has a value.
     *
     * @param key the key
     * @param function the function
     * @param argument its argument; null for a function that needs none
     * @return the new value, or null
     * @throws ArithmeticException if a sum by SUM_EXACT has more than 64 bits. Nothing changed.
     */
    default V computeIfPresent(String key, Fn<V> function, V argument) {
        return computeIfPresent(key, (same, old) -> function.applied(old, argument));
    }

    // ---- the whole map

    /**
     * How many keys have a value, which the server knows without going over its map.
     *
     * @return the number
     */
    default long mappingCount() {
        return size();
    }

    /**
     * The least key, by its bytes, that has this value. The server goes over its whole map.
     *
     * @param value the value
     * @return the key, or null
     */
    default String search(V value) {
        return entrySet().stream().filter(entry -> entry.getValue().equals(value)).map(Map.Entry::getKey)
            .min(Comparator.comparing(Wire::key, java.util.Arrays::compareUnsigned)).orElse(null);
    }

    /**
     * Folds all values by a function. The server goes over its whole map.
     *
     * @param function SUM, MAX or MIN
     * @return the result, empty if the map is
     * @throws ClassCastException if a value is a text
     */
    default OptionalLong reduceToLong(Fn<Long> function) {
        return values().stream().map(Long.class::cast).reduce(function).map(OptionalLong::of).orElse(OptionalLong.empty());
    }
}
