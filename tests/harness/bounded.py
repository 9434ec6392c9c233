"""Programs that end in time, or are ended and tell where they were."""
import contextlib
import signal
import subprocess
import tempfile

# What a program that is late gets, one after the other, and for how long each is waited for: a JVM and a script of the
# harness tell at the first what their threads do, and stop what they started at the second.
SIGNALS, SIGNAL_SECONDS = (signal.SIGQUIT, signal.SIGTERM, signal.SIGKILL), 5


def run(words, seconds, **options):
    """Runs a program for so long at most: its status, None if it was late, and all that it printed."""
    # A file and no pipe: what the program started may outlive it.
    with tempfile.TemporaryFile("w+", encoding="utf-8", errors="replace") as output:
        with subprocess.Popen(words, stdin=subprocess.DEVNULL, stdout=output, stderr=subprocess.STDOUT, **options) as program:
            try:
                status = program.wait(seconds)
            except subprocess.TimeoutExpired:
                status = None
            finally:
                end(program)
        output.seek(0)
        return status, output.read()


def end(program):
    for number in SIGNALS:
        if program.poll() is None:
            program.send_signal(number)
            with contextlib.suppress(subprocess.TimeoutExpired):
                program.wait(SIGNAL_SECONDS)
