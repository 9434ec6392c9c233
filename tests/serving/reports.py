"""The records of servers that report."""
import contextlib
import os
import re
import resource

from harness.frames import frame
from harness.places import read
from harness.servers import Connection, Dchm
from serving.runs import PREFIX_RECORD, SMALL_LOG, Process, call_lines, key_of, run


class Reports(Process):
    """The records that `--report-seconds` asks for, beside known requests."""

    KEYS = ("calls", "mean_us", "p50_us", "p99_us", "max_us", "changes", "batches", "batch_mean", "connections", "held",
            "waiting", "tickets", "durable", "entries", "log_bytes", "generation")
    # Left out if it isn't known; the memory is told on Linux.
    LAST_KEYS = ("sealed_seconds", "memory_bytes")
    CHECKPOINT_KEYS = ("generation", "entries", "bytes", "seconds")
    ENTRIES = 40
    EACH_SECOND = ("--report-seconds", "1")

    def told(self, kind):
        """The pairs of each record of a kind, in their order. A record whose line isn't whole yet is left out."""
        lines = self.records().split("\n")[:-1]
        found = [re.fullmatch(rf"\[INFO  cmd_serve(?:::\w+)*\] {kind} (.*)", line) for line in lines]
        return [dict(pair.split("=") for pair in record[1].split(" ")) for record in found if record]

    def total(self, key):
        return sum(int(report[key]) for report in self.told("report"))

    def put_all(self, port, value):
        """Puts each key in a row with the others."""
        puts = "".join(f"put {key_of(number)} i{value}\n" for number in range(self.ENTRIES))
        status, _, said = call_lines(port, puts)
        self.assertEqual((0, ""), (status, said))

    def test_known_requests(self):
        """Each request is counted once, and the map stands as they left it."""
        with self.served(*self.EACH_SECOND) as (_, port):
            self.put_all(port, 1)
            self.assertEqual((0, f"now i{self.ENTRIES}\nwas i1\nnow _\n", ""),
                             call_lines(port, f"count\nremove {key_of(0)}\nget {key_of(0)}\n"))
            self.wait_until(lambda: self.total("calls") >= self.ENTRIES + 3, "all calls are reported")
            reports = self.told("report")
            changes = self.ENTRIES + 1
            self.assertEqual((self.ENTRIES + 3, changes), (self.total("calls"), self.total("changes")))
            self.assertIn(self.total("batches"), range(2, changes + 1))
            self.assertEqual([str(changes)] * 2 + [str(self.ENTRIES - 1), "0"],
                             [reports[-1][key] for key in ("tickets", "durable", "entries", "generation")])
            self.assertEqual(os.path.getsize(os.path.join(self.directory, "log-a")), int(reports[-1]["log_bytes"]))

    def test_their_form(self):
        """The pairs stand in a fixed order. A time is no greater than the greatest, and a power of two is above the half."""
        with self.served(*self.EACH_SECOND) as (_, port):
            self.put_all(port, 1)
            self.wait_until(lambda: self.total("calls") == self.ENTRIES, "all calls are reported")
            for report in self.told("report"):
                known = tuple(key for key in self.LAST_KEYS if key in report)
                self.assertEqual(self.KEYS + known, tuple(report))
                self.assertNotIn("sealed_seconds", report)
                mean, half, most, greatest = (int(report[key]) for key in ("mean_us", "p50_us", "p99_us", "max_us"))
                self.assertLessEqual(mean, greatest)
                self.assertLessEqual(half, most)
                self.assertLessEqual(most, 2 * max(greatest, 1))
                for bound in (half, most):
                    self.assertEqual(0, bound & (bound - 1), report)
                if os.path.exists("/proc/self/status"):
                    self.assertGreater(int(report["memory_bytes"]), 1 << 20)

    def test_their_page(self):
        """It tells of each pair, in their order."""
        text = read("docs", "OPERATIONS.md")
        for kind, keys in (("report", self.KEYS + self.LAST_KEYS), ("checkpoint", self.CHECKPOINT_KEYS)):
            rows = text.partition(f"| Key of `{kind}` | Is |\n|---|---|\n")[2].partition("\n\n")[0].splitlines()
            self.assertEqual(list(keys), [key for row in rows for key in re.findall(r"`(\w+)`", row.split("|")[1])])

    def test_changes_one_by_one(self):
        """Each is a batch of its own, and is durable once it is answered."""
        with self.served(*self.EACH_SECOND) as (_, port):
            with contextlib.closing(Connection(Dchm, port)) as connection:
                for number in range(self.ENTRIES):
                    connection.exchange(Dchm.request("put", b"key", number))
            self.wait_until(lambda: self.total("calls") == self.ENTRIES, "all calls are reported")
            self.wait_until(lambda: self.told("report")[-1]["calls"] == "0", "a report of nothing")
            *reports, last = self.told("report")
            self.assertEqual(self.ENTRIES, self.total("batches"))
            self.assertEqual((self.ENTRIES, str(self.ENTRIES)), (self.total("changes"), last["durable"]))
            self.assertLessEqual({report["batch_mean"] for report in reports if report["batches"] != "0"}, {"1.0"})
            self.assertEqual({"0"}, {last[key] for key in ("mean_us", "p50_us", "p99_us", "max_us", "changes", "batches")})
            self.assertEqual("0.0", last["batch_mean"])

    def test_requests_that_are_no_calls(self):
        """They are refused before a call is begun, and aren't counted."""
        with self.served(*self.EACH_SECOND) as (_, port):
            for request in (frame(bytes([99])), Dchm.request("put", b"key", 1)):
                with contextlib.closing(Connection(Dchm, port)) as connection:
                    connection.exchange(request)
            self.wait_until(lambda: self.total("calls") > 0, "a call is reported")
            behind = len(self.told("report")) + 1
            self.wait_until(lambda: len(self.told("report")) > behind, "the next reports")
            self.assertEqual((1, 1), (self.total("calls"), self.total("changes")))

    def test_a_failed_store(self):
        """The reports go on. How many entries there are isn't known any more."""
        with self.served(*self.EACH_SECOND, limits=[(resource.RLIMIT_FSIZE, 4096)]) as (_, port):
            puts = "".join(f"put {key_of(number)} i1\n" for number in range(300))
            self.assertEqual(1, call_lines(port, puts)[0])
            self.wait_until(lambda: "the store has failed" in self.records(), "a record of the failure")
            behind = len(self.told("report")) + 2
            self.wait_until(lambda: len(self.told("report")) >= behind, "the reports go on")
            calls = self.total("calls")
            self.assertEqual((1, "refused 9 Failed\n", ""), call_lines(port, "get a\n"))
            last = self.told("report")[-1]
            self.assertNotIn("entries", last)
            self.assertLessEqual(int(last["durable"]), int(last["tickets"]))
            self.assertLessEqual(int(last["log_bytes"]), 4096)
            self.wait_until(lambda: self.total("calls") == calls + 1, "a refused call is counted")

    def test_connections(self):
        """Those that are open are counted, though nothing was sent on them."""
        with self.served(*self.EACH_SECOND) as (_, port), contextlib.ExitStack() as open_ones:
            for _ in range(3):
                open_ones.enter_context(contextlib.closing(Connection(Dchm, port)))
            standing = {"connections": "3", "held": "0", "waiting": "0"}
            self.wait_until(lambda: any(standing.items() <= report.items() for report in self.told("report")), "all are open")
            open_ones.close()
            standing["connections"] = "0"
            self.wait_until(lambda: standing.items() <= self.told("report")[-1].items(), "none is open")

    def test_checkpoints(self):
        """Each has a record of its own, with what its file has."""
        with self.served(*self.EACH_SECOND, "--checkpoint-bytes", "512") as (child, port):
            for value in range(3):
                self.put_all(port, value)
                self.wait_until(lambda: len(self.told("checkpoint")) > value, "a checkpoint has a record")
            self.wait_until(self.is_sealed_for_a_second, "a report tells of the last one")
            child.kill()
            child.wait()
        checkpoints = self.told("checkpoint")
        self.assertEqual([str(number + 1) for number in range(len(checkpoints))],
                         [checkpoint["generation"] for checkpoint in checkpoints])
        for checkpoint in checkpoints:
            self.assertEqual(self.CHECKPOINT_KEYS, tuple(checkpoint))
            self.assertRegex(checkpoint["seconds"], r"^\d+\.\d{3}$")
        last = checkpoints[-1]
        status, printed, _ = run("check", self.directory)
        self.assertEqual((0, f"generation {last['generation']}"), (status, printed.splitlines()[0]))
        file = os.path.join(self.directory, ("ckpt-a", "ckpt-b")[int(last["generation"]) % 2])
        self.assertEqual((str(self.ENTRIES), os.path.getsize(file)), (last["entries"], int(last["bytes"])))

    def is_sealed_for_a_second(self):
        """Whether the last report is of the last checkpoint that has a record, which was sealed a second before and more."""
        generations = [checkpoint["generation"] for checkpoint in self.told("checkpoint")]
        return any(report["generation"] == generations[-1] and int(report.get("sealed_seconds", "0")) > 0
                   for report in self.told("report")[-1:])

    def test_none_without_the_option(self):
        """Nor of a checkpoint, by whose file it is seen that one was sealed."""
        with self.served(*SMALL_LOG) as (child, port):
            self.put_all(port, 1)
            self.put_all(port, 2)
            self.wait_until(lambda: self.is_sealed("ckpt-b"), "a checkpoint is sealed")
            child.kill()
            child.wait()
        self.assertRegex(self.records(), "^" + PREFIX_RECORD.format(0) + "\n$")

    def is_sealed(self, name):
        """Whether the gate of a checkpoint's file is open."""
        with open(os.path.join(self.directory, name), "rb") as file:
            return file.read(1) == b"\xa5"

    def test_words_that_are_not_allowed(self):
        for word in ("0", "x", "", "1.5", "4294967296"):
            self.assertEqual((2, "", "N of --report-seconds is a number from 1 to 4294967295\n"),
                             run("serve", "nowhere", "--port", "7411", "--report-seconds", word), word)
        self.assertIn("--report-seconds <N>", run("serve", "--help")[1])
