"""A channel that is a BusABC of python-can."""

from typing import TYPE_CHECKING, Any

import can

from .channel import Channel

if TYPE_CHECKING:
    from .bus import Bench


class CanChannel(Channel, can.BusABC):
    """A channel that is a BusABC of python-can, with its filters."""

    message_class = can.Message

    def __init__(self, bench: "Bench", called: str, receive_own_messages: bool = False) -> None:
        Channel.__init__(self, bench, called, receive_own_messages)
        can.BusABC.__init__(self, called)
        self.channel_info = called

    def send_periodic(self, *words: Any, **more: Any) -> Any:
        return can.BusABC.send_periodic(self, *words, **more)

    def shutdown(self) -> None:
        Channel.shutdown(self)
        can.BusABC.shutdown(self)

    def _is_wanted(self, msg: Any) -> bool:
        return bool(self._matches_filters(msg))
