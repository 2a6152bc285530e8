"""A listener for python-can (the extra `hidzgula[can]`): a station, or one who only listens, before a live bus."""

import collections
import threading
import time
from typing import Callable, Deque, Optional, Tuple, Union

import can

from . import PGN_ADDRESS_CLAIMED
from . import listener as hearing
from .candump import is_overflow
from .records import Change, Frame, Heard, Message, Reply
from .station import Station, instance_of
from .waits import Waits

BROADCAST_GAP = 0.05
"""Seconds between the frames of a broadcast: 50 to 200 ms by SAE J1939-21, 10 to 200 ms by ISO 11783-3 and later editions (from memory)."""
ECHO_WITHIN = 60.0
"""Seconds within which the echo of a frame that was sent may come."""
MOST_ECHOES = 256
"""The most frames that were sent whose echoes are waited for: the latest."""

OnChange = Callable[[Union[Change, Heard], can.Message], None]


class Listener(can.Listener):
    """Hands what python-can reads of one bus to a station, and sends what it replies; or to a `hidzgula.Listener`, with the times of the messages.

        with can.Bus("can0", interface="socketcan") as bus, hidzgula.Station(name=1, address=249) as station:
            listener = Listener(station, bus)
            notifier = can.Notifier(bus, [listener])
            listener.start()

        with can.Bus("can0", interface="socketcan") as bus, hidzgula.Listener() as hears:
            notifier = can.Notifier(bus, [Listener(hears)])

    Passed over are frames with 11-bit identifiers, remote frames, frames of CAN FD, and the echo of each frame that the listener sent; an
    error frame that tells of an overflow is a frame missed. Whatever else was missed the program tells by `missed`.

    An echo is a message with `is_rx` False, the identifier and the bytes of a frame that was sent and whose echo has not come yet. Any other
    message is taken, whoever sent it: over SocketCAN `is_rx` is False of each frame that a program of this machine sent.

    Replies are sent at once, so none waits that could be withdrawn. What the station is asked goes through the listener's `ask`,
    `ask_all` and `command`: a lock keeps order and sending together, so that no order is sent from an address that was lost meanwhile.
    A listener is for one bus; a program gives each bus a station of its own.
    """

    def __init__(self, station: Union[Station, hearing.Listener], bus: Optional[can.BusABC] = None, on_change: Optional[OnChange] = None) -> None:
        """station: which takes the frames, or a `hidzgula.Listener`.
        bus: on which a station replies; None for a listener. Else a ValueError is raised.
        on_change: is called with each change and the message that made it, in the thread that reads the bus.
        """
        if not isinstance(station, (Station, hearing.Listener)):
            raise TypeError(f"station is a Station or a hidzgula.Listener, and not {station!r}")
        if bus is not None and not callable(getattr(bus, "send", None)):
            raise TypeError(f"bus is a bus of python-can, or None, and not {bus!r}")
        if on_change is not None and not callable(on_change):
            raise TypeError(f"on_change is a function, or None, and not {on_change!r}")
        if bus is None and isinstance(station, Station):
            raise ValueError("a station needs a bus to reply on; hand over one, or a hidzgula.Listener, which replies nothing")
        if bus is not None and not isinstance(station, Station):
            raise ValueError("a listener sends nothing, and has no use for a bus to send on")
        self.station = station
        self.bus = bus
        self.on_change = on_change
        self._waits = Waits(station)
        self._sending = threading.Lock()
        # the frames sent whose echoes may come, the oldest first, each with the time until which it may
        self._sent: Deque[Tuple[float, int, bytes]] = collections.deque(maxlen=MOST_ECHOES)

    def __repr__(self) -> str:
        return f"<hidzgula.can.Listener of {self.station!r}>"

    def on_message_received(self, msg: can.Message) -> None:
        """Takes a message of the bus. Raises what `take` of the station or the listener raises, and what the bus raises where it cannot send."""
        if msg.is_error_frame:
            if is_overflow(msg.arbitration_id, bytes(msg.data)):
                self._tell(self.missed(1), msg)
            return
        if not msg.is_extended_id or msg.is_remote_frame or msg.is_fd:
            return
        if isinstance(self.station, hearing.Listener):
            for _, heard in self.station.take_frames([(msg.arbitration_id, msg.data)], [_micros_of(msg)]).heard:
                self._tell(heard, msg)
            return
        with self._sending:
            if not msg.is_rx and self._is_echo(msg.arbitration_id, bytes(msg.data)):
                return
            reply, change = self.station.take(msg.arbitration_id, msg.data)
            self._send(reply)
        self._tell(change, msg)

    def start(self) -> None:
        """Sends the station's claim and asks all units for theirs. A listener sends nothing."""
        if not isinstance(self.station, Station):
            return
        with self._sending:
            self._send(Reply(False, (self.station.claim(),)))
            self._send(self.station.ask_all(PGN_ADDRESS_CLAIMED))

    def missed(self, count: int) -> Union[Change, Heard]:
        """Tells the station that `count` frames were missed, and sends its reply; `Station.missed` says what that does. Or tells the listener."""
        if isinstance(self.station, hearing.Listener):
            return self.station.missed(count)
        with self._sending:
            reply, change = self.station.missed(count)
            self._send(reply)
        return change

    def ask(self, name: int, pgn: int) -> None:
        """Asks the unit of a NAME for a parameter group; raises what `Station.ask` raises."""
        with self._sending:
            self._send(self._asks().ask(name, pgn))

    def ask_all(self, pgn: int) -> None:
        """Asks all units for a parameter group; raises what `Station.ask_all` raises."""
        with self._sending:
            self._send(self._asks().ask_all(pgn))

    def command(self, name: int, address: int) -> None:
        """Commands the unit of a NAME to hold an address; raises what `Station.command` raises. It takes two times `BROADCAST_GAP`, and
        what is read meanwhile is taken behind it."""
        with self._sending:
            self._send(self._asks().command(name, address), BROADCAST_GAP)

    def wait_for(self, name: hearing.Whose, kind: int, timeout: float, before: Optional[int] = None) -> Message:
        """Waits until a message of a kind comes from a unit, and answers it; in another thread than the one that reads the bus.

        timeout: in seconds. before: how many had come, by `count`, where the one behind these is wanted, as that which answers what was asked
        since; None for as many as have come by now.

        Raises a TimeoutError where none came, and what the station or the listener raises.
        """
        return self._waits.wait_for(name, kind, timeout, before)

    def stop(self) -> None:
        """Does nothing: the station or the listener stays open."""

    def _asks(self) -> Station:
        """The station, which can be asked. Raises a TypeError of a listener."""
        instance_of("what asks units", self.station, Station)
        return self.station  # type: ignore[return-value]

    def _tell(self, change: Union[Change, Heard], msg: can.Message) -> None:
        if change.what:
            self._waits.tell()
        if self.on_change is not None and change.what:
            self.on_change(change, msg)

    def _send(self, reply: Reply, gap: float = 0.0) -> None:
        if self.bus is None:
            return
        for place, frame in enumerate(reply.frames):
            if place and gap:
                time.sleep(gap)
            self._send_frame(self.bus, frame)

    def _send_frame(self, bus: can.BusABC, frame: Frame) -> None:
        """Sends a frame, whose echo may come from then on."""
        sent = (time.monotonic() + ECHO_WITHIN, *frame)
        self._sent.append(sent)
        try:
            bus.send(_message_of(frame))
        except BaseException:
            self._sent.remove(sent)
            raise

    def _is_echo(self, id: int, data: bytes) -> bool:
        """Whether a message is the echo of a frame that was sent, which then is waited for no longer."""
        now = time.monotonic()
        while self._sent and self._sent[0][0] < now:
            self._sent.popleft()
        for sent in self._sent:
            if sent[1:] == (id, data):
                self._sent.remove(sent)
                return True
        return False


def _micros_of(msg: can.Message) -> Optional[int]:
    """When a message was read, in microseconds; None where its driver does not tell."""
    return int(msg.timestamp * 1_000_000) if msg.timestamp else None


def _message_of(frame: Frame) -> can.Message:
    return can.Message(arbitration_id=frame.id, data=frame.data, is_extended_id=True)
