"""Many calls of the client for Java with long texts, over a Unix socket: none takes long, and each reply is right."""
import os
import subprocess

from harness import packages
from harness.places import JAVA
from harness.served import MapTest
from harness.servers import dchm_at_socket
from harness.suite import is_ci

PACKAGES = {"openjdk-17-jdk-headless": "javac"}
THREADS, LONGEST_SECONDS = 8, 5
BUILD_SECONDS, CALLS_A_SECOND = 600, 500


class Soak(MapTest):
    # Set by tests/sockets.
    calls = 300_000

    def test_long_texts_of_many_threads(self):
        missing = packages.install(PACKAGES)
        if missing:
            (self.fail if is_ci() else self.skipTest)("there is no " + " ".join(missing))
        subprocess.run([os.path.join(JAVA, "build"), "bench"], check=True, stdin=subprocess.DEVNULL, timeout=BUILD_SECONDS)
        path = ":".join(os.path.join(JAVA, "out", name) for name in ("main", "bench"))
        with dchm_at_socket(self.program, self.directory, 4, self.directory + ".socket") as (_, place):
            words = ["java", "-cp", path, "dchm.client.Soak", place, str(THREADS), str(self.calls), str(LONGEST_SECONDS)]
            ended = subprocess.run(words, stdin=subprocess.DEVNULL, stdout=subprocess.PIPE, stderr=subprocess.STDOUT, text=True,
                                   timeout=BUILD_SECONDS + self.calls / CALLS_A_SECOND)
        print(ended.stdout, end="", flush=True)
        self.assertEqual(0, ended.returncode, ended.stdout)
