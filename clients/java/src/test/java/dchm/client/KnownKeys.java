package dchm.client;

import java.util.AbstractMap;
import java.util.AbstractSet;
import java.util.Iterator;
import java.util.List;
import java.util.Map;
import java.util.NoSuchElementException;
import java.util.Set;
import java.util.concurrent.ConcurrentHashMap;
import java.util.concurrent.ConcurrentMap;
import java.util.function.BiFunction;
import java.util.function.Function;

/**
 * For tests alone: a server's map with views over the keys that were named so far, each of which is asked by a Get.
 * Guava's suites look at a map through its entry set; so they can judge what the calls of the client did.
 */
final class KnownKeys<V> extends AbstractMap<String, V> implements ConcurrentMap<String, V> {
    private final DchmMap<V> map;
    private final Set<String> keys = ConcurrentHashMap.newKeySet();

    KnownKeys(DchmMap<V> map) {
        this.map = map;
    }

    /** The keys that were named so far. */
    Set<String> keys() {
        return keys;
    }

    private String named(String key) {
        if (key != null) {
            keys.add(key);
        }
        return key;
    }

    @Override
    public int size() {
        return map.size();
    }

    @Override
    public boolean isEmpty() {
        return map.isEmpty();
    }

    @Override
    public boolean containsValue(Object value) {
        return map.containsValue(value);
    }

    @Override
    public boolean containsKey(Object key) {
        return map.containsKey(key);
    }

    @Override
    public V get(Object key) {
        return map.get(key);
    }

    @Override
    public V getOrDefault(Object key, V otherwise) {
        return map.getOrDefault(key, otherwise);
    }

    @Override
    public V put(String key, V value) {
        return map.put(named(key), value);
    }

    @Override
    public V putIfAbsent(String key, V value) {
        return map.putIfAbsent(named(key), value);
    }

    @Override
    public V remove(Object key) {
        return map.remove(key);
    }

    @Override
    public boolean remove(Object key, Object value) {
        return map.remove(key, value);
    }

    @Override
    public V replace(String key, V value) {
        return map.replace(key, value);
    }

    @Override
    public boolean replace(String key, V old, V value) {
        return map.replace(key, old, value);
    }

    @Override
    public void putAll(Map<? extends String, ? extends V> entries) {
        entries.keySet().forEach(this::named);
        map.putAll(entries);
    }

    @Override
    public V compute(String key, BiFunction<? super String, ? super V, ? extends V> function) {
        return map.compute(named(key), function);
    }

    @Override
    public V computeIfAbsent(String key, Function<? super String, ? extends V> function) {
        return map.computeIfAbsent(named(key), function);
    }

    @Override
    public V computeIfPresent(String key, BiFunction<? super String, ? super V, ? extends V> function) {
        return map.computeIfPresent(named(key), function);
    }

    @Override
    public V merge(String key, V value, BiFunction<? super V, ? super V, ? extends V> function) {
        return map.merge(named(key), value, function);
    }

    @Override
    public void clear() {
        keys.forEach(map::remove);
    }

    @Override
    public Set<Map.Entry<String, V>> entrySet() {
        return new Entries();
    }

    private final class Entries extends AbstractSet<Map.Entry<String, V>> {
        @Override
        public int size() {
            return map.size();
        }

        @Override
        public void clear() {
            KnownKeys.this.clear();
        }

        @Override
        public boolean contains(Object entry) {
            return entry instanceof Map.Entry<?, ?> pair && pair.getKey() != null && pair.getValue() != null
                && pair.getValue().equals(map.get(pair.getKey()));
        }

        @Override
        public boolean remove(Object entry) {
            return entry instanceof Map.Entry<?, ?> pair && pair.getKey() != null
                && map.remove(pair.getKey(), pair.getValue());
        }

        @Override
        public Iterator<Map.Entry<String, V>> iterator() {
            return new Walk(List.copyOf(keys).iterator());
        }
    }

    /** A walk over the keys that were named when it began. */
    private final class Walk implements Iterator<Map.Entry<String, V>> {
        private final Iterator<String> names;
        private Map.Entry<String, V> next;
        private String last;

        Walk(Iterator<String> names) {
            this.names = names;
            next = found();
        }

        private Map.Entry<String, V> found() {
            while (names.hasNext()) {
                String key = names.next();
                V value = map.get(key);
                if (value != null) {
                    return new Written(key, value);
                }
            }
            return null;
        }

        @Override
        public boolean hasNext() {
            return next != null;
        }

        @Override
        public Map.Entry<String, V> next() {
            Map.Entry<String, V> entry = next;
            if (entry == null) {
                throw new NoSuchElementException();
            }
            last = entry.getKey();
            next = found();
            return entry;
        }

        @Override
        public void remove() {
            if (last == null) {
                throw new IllegalStateException();
            }
            map.remove(last);
            last = null;
        }
    }

    /** An entry whose value is put when it is set. */
    private final class Written extends SimpleEntry<String, V> {
        private static final long serialVersionUID = 1;

        Written(String key, V value) {
            super(key, value);
        }

        @Override
        public V setValue(V value) {
            map.put(getKey(), value);
            return super.setValue(value);
        }
    }
}
