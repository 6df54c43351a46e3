"""Messages over a socket: JSON, each behind its length in 8 bytes, and both ends have shown that they have a key.

JSON and no pickle, so that who has the key can ask and answer, and no more.
"""

from __future__ import annotations

import json
import socket
import time
from multiprocessing.connection import AuthenticationError, answer_challenge, deliver_challenge
from typing import Any, Optional

_LENGTH = 8
# the most bytes of a message, and of one between ends that have not shown a key yet
MOST, _MOST_UNKNOWN = 1 << 30, 256
_CHUNK = 1 << 20
# what may go wrong with the other end
BROKEN = (OSError, EOFError, AuthenticationError)


class Wire:
    """One end of a connection. Each call takes at most so many seconds in all, or ends with an `OSError`."""

    def __init__(self, connected: socket.socket, seconds: float) -> None:
        self._socket, self.seconds, self._taken = connected, seconds, bytearray()
        if connected.family in (socket.AF_INET, socket.AF_INET6):
            connected.setsockopt(socket.IPPROTO_TCP, socket.TCP_NODELAY, 1)
        connected.setsockopt(socket.SOL_SOCKET, socket.SO_KEEPALIVE, 1)

    def fileno(self) -> int:
        return self._socket.fileno()

    def close(self) -> None:
        self._socket.close()

    def hang_up(self) -> None:
        """Ends the connection; a call of another thread's ends at once."""
        try:
            self._socket.shutdown(socket.SHUT_RDWR)
        except OSError:
            pass

    def greet(self, key: bytes) -> None:
        """Shows the other end, which has asked for this connection, the key, once that has shown it."""
        deliver_challenge(self, key)
        answer_challenge(self, key)

    def introduce(self, key: bytes) -> None:
        """Shows the other end, which has accepted this connection, the key, and has it shown in turn."""
        answer_challenge(self, key)
        deliver_challenge(self, key)

    def send_bytes(self, data: bytes) -> None:
        self._socket.settimeout(self.seconds)
        self._socket.sendall(len(data).to_bytes(_LENGTH, "big") + data)

    def recv_bytes(self, most: int = _MOST_UNKNOWN) -> bytes:
        """Waits for a message."""
        end = time.monotonic() + self.seconds
        while True:
            data = self._whole(most)
            if data is not None:
                return data
            self._socket.settimeout(max(end - time.monotonic(), 1e-6))
            self._take(_CHUNK)

    def _take(self, most: int) -> None:
        chunk = self._socket.recv(most)
        if not chunk:
            raise EOFError
        self._taken += chunk

    def _whole(self, most: int) -> Optional[bytes]:
        """A message, where all of one is there. A length beyond the most is refused before anything is kept for it."""
        if len(self._taken) < _LENGTH:
            return None
        end = _LENGTH + int.from_bytes(self._taken[:_LENGTH], "big")
        if end - _LENGTH > most:
            raise OSError(f"a message of {end - _LENGTH} bytes, where {most} are the most")
        if len(self._taken) < end:
            return None
        data = bytes(memoryview(self._taken)[_LENGTH:end])
        del self._taken[:end]
        return data

    def send(self, message: Any) -> None:
        data = json.dumps(message, separators=(",", ":")).encode()
        if len(data) > MOST:
            raise ValueError(f"a message of {len(data)} bytes, where {MOST} are the most: ask less at once")
        self.send_bytes(data)

    def receive(self) -> Any:
        """Waits for a message, however long none begins; once one does, it has to come in time."""
        if not self._taken:
            self._socket.settimeout(None)
            self._take(_CHUNK)
        return _message(self.recv_bytes(MOST))

    def hear(self) -> Optional[Any]:
        """A message, or None where not all of one is there yet. Called where there is something to be read."""
        self._socket.settimeout(self.seconds)
        self._take(_CHUNK)
        data = self._whole(MOST)
        return None if data is None else _message(data)


def _message(data: bytes) -> Any:
    try:
        return json.loads(data)
    except (ValueError, RecursionError) as error:
        raise OSError(f"what came is no message: {error}") from None
