"""What the recipes share: a worker that goes on until its standard input ends, and calls that may be repeated."""
import contextlib
import select
import sys
import time

import dchm

PAUSE_SECONDS = 0.02


def say(*words):
    """Prints a line, whole."""
    sys.stdout.write(" ".join(map(str, words)) + "\n")
    sys.stdout.flush()


def repeated(call):
    """The answer to a call that may be made twice, however often that takes."""
    while True:
        with contextlib.suppress(dchm.NotMade, dchm.OutcomeOpen):
            return call()
        time.sleep(PAUSE_SECONDS)


def settled(server, key, change):
    """Changes a text `VERSION WORD..` until change(words) is None: there is nothing more to do. Returns the words.

    What it does may be repeated after an open outcome: versions only rise, so no text comes back, and what was done is seen.
    """
    while True:
        text = repeated(lambda: server.get(key))
        version, *words = (text or "0").split(" ")
        new = change(words)
        if new is None:
            return words
        text_after = " ".join([str(int(version) + 1), *new])
        try:
            if text is None:
                server.put_if_absent(key, text_after)
            else:
                server.replace_if(key, text, text_after)
        except (dchm.NotMade, dchm.OutcomeOpen):
            time.sleep(PAUSE_SECONDS)


def goes_on():
    """Whether the standard input hasn't ended."""
    return not select.select([sys.stdin], [], [], 0)[0]


def run(work):
    """A worker: work(server, worker) again and again, with the port and the worker's name that the program was told."""
    with repeated(lambda: dchm.connect(int(sys.argv[1]))) as server:
        while goes_on():
            work(server, sys.argv[2])
