"""Sockets of SocketCAN, as python-can hands on what they read: no virtual bus of python-can sets these flags.

A frame that a program of this machine sent reaches each other socket of it with `is_rx` False (the kernel's MSG_DONTROUTE), and the socket that sent it
where that asked for its own (`receive_own_messages`, CAN_RAW_RECV_OWN_MSGS), likewise with False. A frame from the wire has True.
"""

import copy
import queue


class Interface:
    """A CAN interface of this machine."""

    def __init__(self):
        self.sockets = []

    def wire(self, msg):
        """A frame comes from the wire."""
        self.hand_on(msg, True, None)

    def hand_on(self, msg, is_rx, sender):
        for it in self.sockets:
            if it is not sender or it.receive_own_messages:
                read = copy.copy(msg)
                read.is_rx = is_rx
                it.received.put(read)


class Socket:
    """A bus of python-can over a socket: what the listener and these tests need of it."""

    def __init__(self, interface, receive_own_messages=False):
        self.interface, self.receive_own_messages, self.received = interface, receive_own_messages, queue.Queue()
        interface.sockets.append(self)

    def send(self, msg):
        self.interface.hand_on(msg, False, self)

    def recv(self, timeout=None):
        try:
            return self.received.get(timeout=timeout) if timeout else self.received.get_nowait()
        except queue.Empty:
            return None
