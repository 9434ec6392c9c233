package dchm.client;

import java.util.Map;
import java.util.OptionalLong;
import java.util.concurrent.CompletableFuture;

/**
 * The map of a server, each call of which returns at once, whatever the server does. Calls of one key by one thread are
 * made in their order. If as many are under way as {@link DchmClient.Builder#inFlight} allows, further ones wait in
 * memory, up to {@link DchmClient.Builder#waiting}.
 *
 * <p>A null, a key or a value that no server can hold is thrown at once, as {@link DchmMap} does. All else completes
 * the future: {@link NotMadeException} and {@link RefusedException} if nothing changed, {@link OutcomeOpenException}
 * if the outcome of a change is open. A read isn't sent again.
 *
 * <p>Callbacks run on the common pool, or on the client's executor. They may wait for calls. Those of different calls may
 * run at a time, in any order. One that is added when its call has ended already runs on the thread that adds it, as with
 * any CompletableFuture; {@code thenApplyAsync} and the like never do. A future that is cancelled takes back its call if
 * nothing of it was sent.
 *
 * @param <V> the class of the values: Long, String, or Object for both
 */
public interface AsyncDchmMap<V> {
    /**
     * The value of a key.
     *
     * @param key the key
     * @return the value, or null
     */
    CompletableFuture<V> get(String key);

    /**
     * The value of a key, or another one, which may be null.
     *
     * @param key the key
     * @param otherwise what is given if the key has no value
     * @return the value
     */
    CompletableFuture<V> getOrDefault(String key, V otherwise);

    /**
     * Whether a key has a value.
     *
     * @param key the key
     * @return whether it has one
     */
    CompletableFuture<Boolean> containsKey(String key);

    /**
     * Maps a key to a value.
     *
     * @param key the key
     * @param value the value
     * @return the value before, or null
     */
    CompletableFuture<V> put(String key, V value);

    /**
     * Maps a key to a value if it has none.
     *
     * @param key the key
     * @param value the value
     * @return the value before, or null if the change was made
     */
    CompletableFuture<V> putIfAbsent(String key, V value);

    /**
     * Unmaps a key.
     *
     * @param key the key
     * @return the value before, or null
     */
    CompletableFuture<V> remove(String key);

    /**
     * Unmaps a key if it has this value.
     *
     * @param key the key
     * @param value the value
     * @return whether it was done
     */
    CompletableFuture<Boolean> remove(String key, V value);

    /**
     * Maps a key to another value if it has one.
     *
     * @param key the key
     * @param value the new value
     * @return the value before, or null if there was none
     */
    CompletableFuture<V> replace(String key, V value);

    /**
     * Maps a key to another value if it has the old one.
     *
     * @param key the key
     * @param old the old value
     * @param value the new value
     * @return whether it was done
     */
    CompletableFuture<Boolean> replace(String key, V old, V value);

    /**
     * Merges a value into that of a key, by a function of the server. A fault completes the future with a
     * ClassCastException, an IllegalArgumentException or an ArithmeticException, and nothing changed.
     *
     * @param key the key
     * @param value the value, and the new one if the key has none
     * @param function the function
     * @return the new value, or null
     */
    CompletableFuture<V> merge(String key, V value, Fn<V> function);

    /**
     * Maps a key to what a function of the server gives of the old value and the argument. Faults are as of
     * {@link #merge}.
     *
     * @param key the key
     * @param function the function
     * @param argument its argument; null for a function that needs none
     * @return the new value, or null
     */
    CompletableFuture<V> compute(String key, Fn<V> function, V argument);

    /**
     * As {@link #compute}, if the key has no value.
     *
     * @param key the key
     * @param function the function
     * @param argument its argument; null for a function that needs none
     * @return the value that the key has now, or null
     */
    CompletableFuture<V> computeIfAbsent(String key, Fn<V> function, V argument);

    /**
     * As {@link #compute}, if the key has a value.
     *
     * @param key the key
     * @param function the function
     * @param argument its argument; null for a function that needs none
     * @return the new value, or null
     */
    CompletableFuture<V> computeIfPresent(String key, Fn<V> function, V argument);

    /**
     * Puts each entry. It is not one change. An OutcomeOpenException names the entries that are open.
     *
     * @param entries the entries
     * @return nothing, once all are put
     */
    CompletableFuture<Void> putAll(Map<? extends String, ? extends V> entries);

    /**
     * How many keys have a value, which the server knows without going over its map.
     *
     * @return the number
     */
    CompletableFuture<Long> mappingCount();

    /**
     * Whether a key has this value. The server goes over its whole map.
     *
     * @param value the value
     * @return whether there is one
     */
    CompletableFuture<Boolean> containsValue(V value);

    /**
     * The least key, by its bytes, that has this value. The server goes over its whole map.
     *
     * @param value the value
     * @return the key, or null
     */
    CompletableFuture<String> search(V value);

    /**
     * Folds all values by a function. The server goes over its whole map. A text is a ClassCastException.
     *
     * @param function SUM, MAX or MIN
     * @return the result, empty if the map is
     */
    CompletableFuture<OptionalLong> reduceToLong(Fn<Long> function);
}
