"""Threads that wait for a message of a unit, while another one reads the bus."""

import threading
from typing import Any, Optional

from .records import Kind, Message


class Waits:
    """Those who wait for what comes to the lists of a station or a listener."""

    def __init__(self, lists: Any) -> None:
        self._lists = lists
        self._told = threading.Condition()

    def tell(self) -> None:
        """Something came."""
        with self._told:
            self._told.notify_all()

    def wait_for(self, name: Any, kind: int, timeout: float, before: Optional[int] = None) -> Message:
        """Waits until more than `before` messages of a kind have come from a unit, and answers the one behind those; `hidzgula.can.Listener.wait_for` tells
        the rest."""
        count = self._lists.count(name, kind) if before is None else before
        with self._told:
            if not self._told.wait_for(lambda: bool(self._lists.count(name, kind) > count), timeout):
                said = f"{name:016X}" if isinstance(name, int) else name
                raise TimeoutError(f"no {Kind(kind).name} of {said} within {timeout:g} s")
        message: Message = self._lists.message(name, kind, count)
        return message
