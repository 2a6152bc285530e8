"""A bench: a bus of SAE J1939 in one process and with handed-in time, for tests of a gateway, a dashboard or a control unit.

`hidzgula.pytest_plugin` has it as fixtures of pytest.
"""

from .asserts import assert_dm1, assert_dm2, assert_dm6
from .bus import Bench, Put, Timer
from .channel import Channel, Cyclic, Message
from .device import Device
from .members import BenchStation, BenchUnit, BusFrame
from .since import Since
from .turns import BenchClosed

__all__ = [
    "Bench",
    "BenchClosed",
    "BenchStation",
    "BenchUnit",
    "BusFrame",
    "Channel",
    "Cyclic",
    "Device",
    "Message",
    "Put",
    "Since",
    "Timer",
    "assert_dm1",
    "assert_dm2",
    "assert_dm6",
]
