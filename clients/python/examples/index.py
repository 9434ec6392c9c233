"""An index of names in sharded keys, since the map has no iteration: each key is a text `VERSION NAME..`, the oldest first."""
import zlib

from workers import repeated, settled


class Index:
    """At most `most` names in each of `shards` keys: shards times most times the length of a name is what it holds."""

    def __init__(self, server, name, shards, most):
        self.server, self.name, self.shards, self.most = server, name, shards, most

    def key(self, item):
        return f"{self.name}:{zlib.crc32(item.encode()) % self.shards}"

    def keys(self):
        return [f"{self.name}:{shard}" for shard in range(self.shards)]

    def names(self):
        return [name for key in self.keys() for name in (repeated(lambda: self.server.get(key)) or "0").split(" ")[1:]]

    def add(self, item):
        """Adds a name; returns the oldest one if its place is full, which has to be dropped first, or None."""
        words = settled(self.server, self.key(item),
                        lambda words: None if item in words or len(words) >= self.most else [*words, item])
        return None if item in words else words[0]

    def drop(self, item):
        settled(self.server, self.key(item), lambda words: [word for word in words if word != item] if item in words else None)

    def remove(self):
        """Removes the index itself, to which nobody adds any more."""
        for key in self.keys():
            repeated(lambda: self.server.remove(key))
