"""What the measures of servers share: the load that `cc` builds of bench/load.c, and the servers under it.

It alone says where the package `harness` of tests/ is; the measures take its modules from here.
"""
import contextlib
import os
import subprocess
import sys

HERE = os.path.dirname(os.path.abspath(__file__))
sys.path.append(os.path.join(os.path.dirname(HERE), "tests"))
from harness import counters, places, servers  # noqa: E402, F401

# How many threads of the server serve connections; as many as `dchm serve` has if it is told nothing.
WORKERS = 4
FILLING = {"connections": 16, "flight": 64, "kind": "fill"}
# One thread of the load bounds the requests of so many connections.
MANY_CONNECTIONS, THREADS_OF_MANY = 64, 3


def cpu_seconds(process):
    with open(f"/proc/{process}/stat", encoding="ascii") as file:
        fields = file.read().rpartition(")")[2].split()
    return (int(fields[11]) + int(fields[12])) / os.sysconf("SC_CLK_TCK")


def compile_c(directory, name, *sources):
    program = os.path.join(directory, name)
    paths = [os.path.join(HERE, source) for source in sources]
    subprocess.run(["cc", "-O2", "-pthread", "-o", program, *paths], check=True)
    return program


class Load:
    """The load, built, how long each of its runs measures, and how many threads it has: if nothing is said, as many as a
    run's connections want."""

    def __init__(self, directory, seconds, threads=None):
        self.program = compile_c(directory, "load", "load.c", "load_words.c")
        self.seconds, self.threads = seconds, threads

    def run(self, protocol, place, **options):
        """What one run prints, by its words. The place is a port, or the path of a Unix socket."""
        words = [self.program, protocol, "--port" if isinstance(place, int) else "--socket", str(place)]
        threads = self.threads or (THREADS_OF_MANY if options.get("connections", 1) >= MANY_CONNECTIONS else 1)
        for name, value in {"seconds": self.seconds, "threads": threads, **options}.items():
            words += [f"--{name}", str(value)]
        output = subprocess.run(words, check=True, stdout=subprocess.PIPE, text=True).stdout
        return {name: float(value) for name, _, value in (line.rpartition(" ") for line in output.splitlines())}

    def measure(self, protocol, child, place, **options):
        """What one run prints, with the server's processor time for each request in microseconds."""
        before = cpu_seconds(child.pid)
        found = self.run(protocol, place, **options)
        found["processor"] = (cpu_seconds(child.pid) - before) * 1e6 / max(1, found["replies in all"])
        return found


@contextlib.contextmanager
def started(protocol, program, directory, at_socket=False):
    """A server of an empty directory: its process, and its port or the path of its Unix socket."""
    path = directory + ".socket" if at_socket else None
    if protocol == "redis":
        with servers.redis(program, directory, path) as found:
            yield found
        return
    servers.init(program, directory)
    with servers.dchm_at_socket(program, directory, WORKERS, path) if path else servers.dchm(program, directory, WORKERS) as found:
        yield found
