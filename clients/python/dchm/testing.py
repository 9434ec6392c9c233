"""A server for tests of programs that use dchm.

    with dchm.testing.server() as port:        # an empty map, in a temporary directory
        ...

pytest has the fixtures `dchm_port` and `dchm_client` once the package is installed; else by
`pytest_plugins = ["dchm.testing"]` in conftest.py. The program is the one that is named, $DCHM, or `dchm` of the PATH.
"""
from __future__ import annotations

import contextlib
import importlib
import os
import select
import shutil
import socket
import subprocess
import tempfile
from collections.abc import Callable, Iterator
from typing import Any, TypeVar

import dchm

_START_SECONDS, _END_SECONDS = 60, 10
# Another process may take the port that was free a moment ago.
_MOST_TRIES = 5

F = TypeVar("F", bound=Callable[..., Any])


def _fixture(function: F) -> F:
    """A fixture if there is a pytest; else the function, which nobody calls."""
    try:
        pytest = importlib.import_module("pytest")
    except ImportError:
        return function
    fixture: F = pytest.fixture(function)
    return fixture


def _free_port() -> int:
    with socket.create_server(("127.0.0.1", 0)) as listener:
        port: int = listener.getsockname()[1]
        return port


def _listening(words: list[str], errors: str) -> subprocess.Popen[bytes] | None:
    """The server once it listens; None if it ended before that."""
    with open(errors, "wb") as file:
        child = subprocess.Popen(words, stdin=subprocess.DEVNULL, stdout=subprocess.PIPE, stderr=file)
    assert child.stdout
    ready, _, _ = select.select([child.stdout], [], [], _START_SECONDS)
    if ready and child.stdout.readline().startswith(b"listening "):
        return child
    _end(child)
    return None


def _end(child: subprocess.Popen[bytes]) -> None:
    child.terminate()
    try:
        child.wait(_END_SECONDS)
    except subprocess.TimeoutExpired:
        child.kill()
        child.wait()
    if child.stdout:
        child.stdout.close()


@contextlib.contextmanager
def server(program: str | None = None, *words: str) -> Iterator[int]:
    """`dchm serve` over an empty map, with these words behind it: its port. A RuntimeError is raised if it doesn't start."""
    found = program or os.environ.get("DCHM") or shutil.which("dchm")
    if not found:
        raise RuntimeError("no program dchm: name it, or set DCHM, or put it into the PATH")
    with tempfile.TemporaryDirectory(prefix="dchm-") as room:
        directory, errors = os.path.join(room, "map"), os.path.join(room, "errors")
        os.mkdir(directory)
        subprocess.run([found, "init", directory], check=True, stdin=subprocess.DEVNULL, stdout=subprocess.DEVNULL)
        for _ in range(_MOST_TRIES):
            port = _free_port()
            if child := _listening([found, "serve", directory, "--port", str(port), *words], errors):
                break
        else:
            with open(errors, encoding="utf-8", errors="replace") as file:
                raise RuntimeError(f"dchm serve doesn't start: {file.read()}")
        try:
            yield port
        finally:
            _end(child)


@_fixture
def dchm_port() -> Iterator[int]:
    """The port of a server over an empty map, for one test."""
    with server() as port:
        yield port


@_fixture
def dchm_client(dchm_port: int) -> Iterator[dchm.Client]:
    """A client of that server."""
    with dchm.connect(dchm_port) as client:
        yield client
