"""Sockets to the server: what an address is, and how a connection begins."""
from __future__ import annotations

import errno
import math
import os
import socket
import stat

from dchm.wire import Address

_HOST = "127.0.0.1"
# So long may the path of a Unix socket be.
_PATH_LIMIT = 107


def checked_address(address: Address) -> Address:
    """The address if it can be one: a port, or a path."""
    if isinstance(address, bool) or not isinstance(address, (int, str, os.PathLike)):
        raise TypeError(f"an address is a port (int) or the path of a Unix socket, not {type(address).__name__}")
    if isinstance(address, int):
        if not 0 < address < 65_536:
            raise ValueError(f"a port is from 1 to 65535, not {address}")
        return address
    path = os.fspath(address)
    if path.isdecimal():
        raise ValueError(f"a port is an int: {path}. The path of a socket of this name is './{path}'")
    if not path or "\0" in path or len(os.fsencode(path)) > _PATH_LIMIT:
        raise ValueError(f"the path of a Unix socket has from 1 to {_PATH_LIMIT} bytes: {path!r}")
    return path


def checked_seconds(name: str, seconds: float, least: float = 0.0) -> float:
    """The seconds if they are a number above the least."""
    if isinstance(seconds, bool) or not isinstance(seconds, (int, float)):
        raise TypeError(f"{name} is a number of seconds, not {seconds!r}")
    if math.isnan(seconds) or seconds <= least:
        raise ValueError(f"{name} is a positive number of seconds, not {seconds!r}")
    return seconds


def checked_count(name: str, count: int) -> int:
    """The count if it is a positive int."""
    if isinstance(count, bool) or not isinstance(count, int):
        raise TypeError(f"{name} is an int, not {count!r}")
    if count < 1:
        raise ValueError(f"{name} is at least 1, not {count}")
    return count


def new_socket(address: Address) -> socket.socket:
    """A socket that blocks nothing, and isn't connected."""
    made = socket.socket(socket.AF_INET if isinstance(address, int) else socket.AF_UNIX)
    made.setblocking(False)
    if isinstance(address, int):
        made.setsockopt(socket.IPPROTO_TCP, socket.TCP_NODELAY, 1)
    return made


class Busy(Exception):
    """The server hasn't taken those that connected before; it may be tried again a moment later."""


def is_connected(begun: socket.socket, address: Address) -> bool:
    """Connects: whether it has ended, or goes on until the socket can be written. It may be asked again."""
    number = begun.connect_ex((_HOST, address) if isinstance(address, int) else os.fspath(address))
    if number in (0, errno.EISCONN):
        return True
    if number in (errno.EINPROGRESS, errno.EALREADY, errno.EINTR):
        return False
    if number == errno.EAGAIN:
        raise Busy
    raise OSError(number, _said(number, address))


def _said(number: int, address: Address) -> str:
    if number == errno.ECONNREFUSED and not isinstance(address, int):
        try:
            if not stat.S_ISSOCK(os.stat(address).st_mode):
                return "it is no socket"
        except OSError:
            pass
    return os.strerror(number)
