package examples;

import static examples.Recipe.repeated;
import static examples.Recipe.settled;

import dchm.client.DchmMap;
import java.nio.charset.StandardCharsets;
import java.util.ArrayList;
import java.util.List;
import java.util.stream.IntStream;
import java.util.stream.Stream;
import java.util.zip.CRC32;

/**
 * An index of names in sharded keys, since the map has no iteration: each key is a text `VERSION NAME..`, the oldest
 * first. It has at most so many names in each of its shards.
 */
record Index(DchmMap<String> map, String name, int shards, int most) {
    private String key(String item) {
        CRC32 sum = new CRC32();
        sum.update(item.getBytes(StandardCharsets.UTF_8));
        return name + ":" + sum.getValue() % shards;
    }

    private List<String> keys() {
        return IntStream.range(0, shards).mapToObj(shard -> name + ":" + shard).toList();
    }

    List<String> names() throws InterruptedException {
        List<String> names = new ArrayList<>();
        for (String key : keys()) {
            names.addAll(settled(map, key, words -> null));
        }
        return names;
    }

    /** Adds a name; returns the oldest one if its place is full, which has to be dropped first, or null. */
    String add(String item) throws InterruptedException {
        List<String> words = settled(map, key(item), old -> old.contains(item) || old.size() >= most ? null
            : Stream.concat(old.stream(), Stream.of(item)).toList());
        return words.contains(item) ? null : words.get(0);
    }

    void drop(String item) throws InterruptedException {
        settled(map, key(item), old -> old.contains(item) ? old.stream().filter(word -> !word.equals(item)).toList() : null);
    }

    /** Removes the index itself, to which nobody adds any more. */
    void remove() throws InterruptedException {
        for (String key : keys()) {
            repeated(() -> map.remove(key));
        }
    }
}
