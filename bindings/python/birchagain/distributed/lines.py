"""The side of a line that asks: a connection to each worker, with one question under way at most."""

from __future__ import annotations

import selectors
import socket
import time
from typing import Any, Dict, List, Optional, Sequence, Tuple

from .wire import BROKEN, Wire

Address = Tuple[str, int]


class Line:
    """A connection to a worker. What goes wrong with it is an `OSError`; then it is of no use any more."""

    def __init__(self, address: Address, key: bytes, patience: float) -> None:
        self.address = address
        self.asked_at: Optional[float] = None
        # how long the last answer took, in seconds
        self.took = 0.0
        connected = socket.create_connection(address, timeout=patience)
        self.wire = Wire(connected, patience)
        try:
            self.wire.introduce(key)
        except BROKEN as error:
            self.wire.close()
            raise OSError(f"no line to {address[0]}:{address[1]}: {error!r}") from error

    def ask(self, question: Any) -> None:
        self.wire.send(question)
        self.asked_at = time.monotonic()

    def hear(self) -> Optional[Any]:
        """An answer, where all of it is there."""
        try:
            answer = self.wire.hear()
        except BROKEN as error:
            raise OSError(f"no answer: {error!r}") from error
        if answer is not None:
            self.took, self.asked_at = self.waited(), None
        return answer

    @property
    def is_busy(self) -> bool:
        return self.asked_at is not None

    def waited(self) -> float:
        """For how many seconds an answer has been owed."""
        return 0.0 if self.asked_at is None else time.monotonic() - self.asked_at


class Lines:
    """The lines of a coordinator, by address."""

    def __init__(self, key: bytes, patience: float) -> None:
        self._key, self.patience = key, patience
        self._open: Dict[Address, Line] = {}

    def get(self, address: Address) -> Optional[Line]:
        """An open line to it."""
        return self._open.get(address)

    def open(self, address: Address) -> Line:
        """The line to it, which is opened where there is none. Raises an `OSError` where that does not go."""
        if address not in self._open:
            self._open[address] = Line(address, self._key, self.patience)
        return self._open[address]

    def hang_up(self, address: Address) -> None:
        line = self._open.pop(address, None)
        if line is not None:
            line.wire.close()

    def keep(self, addresses: Sequence[Address]) -> None:
        """Hangs up all others, unless an answer is owed there."""
        for address in [it for it, line in self._open.items() if it not in addresses and not line.is_busy]:
            self.hang_up(address)

    def busy(self) -> List[Line]:
        """Those where an answer is owed."""
        return [it for it in self._open.values() if it.is_busy]

    def close(self) -> None:
        for address in [*self._open]:
            self.hang_up(address)


def ready(lines: Sequence[Line], seconds: float) -> List[Line]:
    """Those where something can be read, once there are any or so much time has passed."""
    with selectors.DefaultSelector() as selector:
        for line in lines:
            selector.register(line.wire, selectors.EVENT_READ, line)
        return [key.data for key, _ in selector.select(max(seconds, 0.0))]
