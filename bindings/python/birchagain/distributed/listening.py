"""The side of a line that answers: a port at which coordinators ask."""

from __future__ import annotations

import socket
import threading
import time
from typing import Any, Callable, List

from .wire import BROKEN, Wire

# so many connections at most that have not shown the key yet: where there are more, the oldest goes. So long each has
_UNKNOWN, _GREETING = 64, 10.0
# so long a coordinator may take to take an answer
_SENDING = 60.0
# so long it waits where no connection can be accepted
_PAUSE = 0.05


class Listener:
    """Answers whoever has the key, each connection in a thread of its own, one question after another.

    `answer` makes an answer of a question. What is no question ends its connection.
    """

    def __init__(self, host: str, key: bytes, answer: Callable[[Any], Any]) -> None:
        family = socket.AF_INET6 if ":" in host else socket.AF_INET
        self._socket = socket.create_server((host, 0), family=family, backlog=_UNKNOWN)
        self.address = self._socket.getsockname()[:2]
        self._key, self._answer = key, answer
        self._unknown: List[Wire] = []
        self._lock = threading.Lock()
        threading.Thread(target=_accept, args=(self._socket, self._take), daemon=True).start()

    def close(self) -> None:
        """No more connections are taken; those that are open end when the other side ends them."""
        try:
            # (which wakes the thread that accepts)
            self._socket.shutdown(socket.SHUT_RDWR)
        except OSError:
            pass
        self._socket.close()

    def _take(self, connected: socket.socket) -> None:
        wire = Wire(connected, _GREETING)
        with self._lock:
            self._unknown.append(wire)
            oldest = self._unknown.pop(0) if len(self._unknown) > _UNKNOWN else None
        if oldest is not None:
            oldest.hang_up()
        try:
            threading.Thread(target=self._serve, args=(wire,), daemon=True).start()
        except RuntimeError:
            self._forget(wire)
            raise

    def _forget(self, wire: Wire) -> None:
        with self._lock:
            if wire in self._unknown:
                self._unknown.remove(wire)

    def _serve(self, wire: Wire) -> None:
        try:
            if self._is_greeted(wire):
                wire.seconds = _SENDING
                while True:
                    wire.send(self._answer(wire.receive()))
        except BROKEN:
            pass
        finally:
            wire.close()

    def _is_greeted(self, wire: Wire) -> bool:
        # one that sends a byte now and then has no more time than one that sends none
        late = threading.Timer(_GREETING, wire.hang_up)
        late.daemon = True
        late.start()
        try:
            wire.greet(self._key)
            return True
        except BROKEN:
            return False
        finally:
            late.cancel()
            self._forget(wire)


def _accept(listening: socket.socket, take: Callable[[socket.socket], None]) -> None:
    """Until the listener is closed."""
    while True:
        try:
            connected, _ = listening.accept()
        except OSError:
            if listening.fileno() == -1:
                return
            # (as where there are too many open files)
            time.sleep(_PAUSE)
            continue
        try:
            take(connected)
        except (OSError, RuntimeError):
            # no memory or no thread for it: the next may find some
            connected.close()
