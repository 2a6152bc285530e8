"""The little of python-can that hidzgula.can uses, so that it is tried where python-can is not: messages, listeners, a bus in one process
that hands what is sent to every other bus of its channel, and the thread that reads one."""

import abc
import queue
import threading


class BusABC(abc.ABC):
    """What a bus is: those of hidzgula.bench are made of it."""

    def __init__(self, channel, **_):
        self.channel_info = channel

    def _matches_filters(self, msg):
        return True

    def send_periodic(self, msgs, period, duration=None, store_task=True):
        return self._send_periodic_internal(msgs if isinstance(msgs, list) else [msgs], period, duration)

    def shutdown(self):
        pass


class Message:
    def __init__(
        self, arbitration_id=0, data=b"", is_extended_id=True, is_remote_frame=False, is_error_frame=False, is_fd=False, is_rx=True, timestamp=0.0,
        channel=None
    ):  # fmt: skip
        self.arbitration_id, self.data = arbitration_id, bytearray(data)
        self.is_extended_id, self.is_remote_frame, self.is_error_frame = is_extended_id, is_remote_frame, is_error_frame
        self.is_fd, self.is_rx, self.timestamp, self.channel = is_fd, is_rx, timestamp, channel


class Listener(abc.ABC):
    @abc.abstractmethod
    def on_message_received(self, msg):
        """Takes a message."""

    def __call__(self, msg):
        self.on_message_received(msg)


class Bus(BusABC):
    channels = {}

    def __init__(self, channel, interface):
        self.received = queue.Queue()
        self.others = self.channels.setdefault((channel, interface), [])
        self.others.append(self)

    def __enter__(self):
        return self

    def __exit__(self, *_):
        self.others.remove(self)

    def send(self, msg):
        for bus in self.others:
            if bus is not self:
                bus.received.put(msg)

    def recv(self, timeout=None):
        try:
            return self.received.get(timeout=timeout)
        except queue.Empty:
            return None


class Notifier:
    """Hands what a bus receives to listeners, in a thread of its own."""

    def __init__(self, bus, listeners):
        self.bus, self.listeners, self.ended = bus, listeners, threading.Event()
        self.thread = threading.Thread(target=self.run, daemon=True)
        self.thread.start()

    def run(self):
        while not self.ended.is_set():
            msg = self.bus.recv(0.02)
            if msg is not None:
                for listener in self.listeners:
                    listener(msg)

    def stop(self, timeout=5):
        self.ended.set()
        self.thread.join(timeout)
