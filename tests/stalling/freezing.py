"""A disk that doesn't answer: what is durable is read meanwhile, and records tell of it."""
import contextlib
import re
import select

from harness.faulty import FOR_EVER
from harness.served import MapTest
from harness.suite import wait_until
from stalling.rooms import ask, connected, difference, get, need_library, now, put, read_bytes, served, was

# The records once a call of a file has taken five seconds, and once it has ended.
SILENT, BACK = re.compile(r"log-[ab]: no answer for 5 s"), re.compile(r"log-[ab]: .*\b(answers|answered|again|back)\b")


# Keys of two stripes: a read waits for the changes of its stripe, and for those that its worker has made.
READ, CHANGED = b"a", b"Aa"
# The workers, the connections that each has, and how many new ones come.
WORKERS, SHARE, NEW = 4, 8, 50
# Within how many seconds a change is answered once its disk has thawed, and all that froze with it.
THAW_SECONDS = 60


class Freezing:
    """What is played at a port and at a Unix socket."""

    def setUp(self):
        super().setUp()
        need_library(self)

    @contextlib.contextmanager
    def frozen(self, room):
        """The disk is frozen, and one change waits for it. It is answered once the disk has thawed, and not before."""
        with connected(room.place, seconds=THAW_SECONDS) as putting:
            self.assertEqual(None, ask(putting, put(READ, 1), was(None)))
            with self.frozen_by(room, putting):
                yield

    @contextlib.contextmanager
    def frozen_by(self, room, putting):
        """The change is made over this connection."""
        written = room.last_write()
        room.page.delay_syncs(FOR_EVER)
        try:
            putting.sendall(put(CHANGED, 2))
            self.wait_until(lambda: room.last_write() != written, "the change is written")
            yield
            self.assertEqual([], select.select([putting], [], [], 0)[0], "a change was answered on a frozen disk")
        finally:
            room.page.delay_syncs(0)
        self.assertEqual(None, difference(was(None), read_bytes(putting, len(was(None)))), "once the disk thawed")

    def test_gets_over_connections_of_other_workers(self):
        """All are answered but those of the worker that has made the change."""
        with served(self.program, self.kind, workers=WORKERS, fault={}) as room, contextlib.ExitStack() as stack:
            old = [stack.enter_context(connected(room.place)) for _ in range(WORKERS * SHARE)]
            self.assertEqual(None, ask(old[0], put(READ, 1), was(None)))
            for client in old:
                self.assertEqual(None, ask(client, get(READ), now(1)))
            with self.frozen_by(room, old[0]):
                for client in old[1:]:
                    client.sendall(get(READ))
                answered = lambda: sum(bool(select.select([client], [], [], 0)[0]) for client in old[1:])
                self.wait_until(lambda: answered() >= (WORKERS - 1) * SHARE, f"{(WORKERS - 1) * SHARE} gets are answered")

    def test_gets_over_new_connections(self):
        with served(self.program, self.kind, workers=WORKERS, fault={}) as room, self.frozen(room):
            for number in range(NEW):
                with connected(room.place) as new:
                    self.assertEqual(None, ask(new, get(READ), now(1)), f"a get over new connection {number}")

    def test_records_of_a_frozen_disk(self):
        """One once it has been silent for five seconds, and one when it came back."""
        with served(self.program, self.kind, workers=WORKERS, fault={}) as room:
            with self.frozen(room):
                self.assertTrue(wait_until(lambda: SILENT.search(room.records())), f"no record: {room.records()!r}")
                told = len(room.records())
            self.assertTrue(wait_until(lambda: BACK.search(room.records()[told:])), f"no record: {room.records()!r}")
            self.assertEqual(1, len(SILENT.findall(room.records())), room.records())


class FreezingAtAPort(Freezing, MapTest):
    kind = "port"


class FreezingAtASocket(Freezing, MapTest):
    kind = "socket"
