"""A simulated unit on a bus of python-can, or of fake/can.py in its place, by a thread of its own; and a listener whose messages another thread waits for."""

import threading
import time

import can

import hidzgula
import hidzgula.can
from hidzgula import DM1, DM2, PGN_DM2, Code
from hidzgula.can_unit import CanUnit
from tries import raised, same, sums

ENGINE = 0x1000000001419907


def waited_for():
    with can.Bus("waits", interface="virtual") as truck, can.Bus("waits", interface="virtual") as tool, hidzgula.Station(1, 249) as station:
        listener = hidzgula.can.Listener(station, tool)
        notifier = can.Notifier(tool, [listener])
        with CanUnit(truck, name=ENGINE, address=128, settle=0) as unit:
            unit.set(110, 0)
            same("its DM1 is waited for", listener.wait_for(ENGINE, DM1, 10.0, before=0).codes, (Code(110, 0, 1),))
            begun = time.monotonic()
            same("the next one", listener.wait_for(ENGINE, DM1, 10.0).place >= 1, True)
            same("a second later", time.monotonic() - begun > 0.2, True)
            unit.heal(110, 0)
            before = station.count(ENGINE, DM2)
            listener.ask(ENGINE, PGN_DM2)
            same("what answers", listener.wait_for(ENGINE, DM2, 10.0, before).codes, (Code(110, 0, 1),))
            error = raised(listener.wait_for, ENGINE, DM2, 0.05)
            same("what never comes", (type(error), str(error)), (TimeoutError, f"no DM2 of {ENGINE:016X} within 0.05 s"))
            same("no kind", raised(listener.wait_for, ENGINE, 3, 0.05).name, "NO_KIND")
            same("it is there", (unit.address, unit.unheard, unit.error), (128, 0, None))
        notifier.stop()
        same("it is closed", (raised(unit.set, 1, 1).name, unit.close()), ("NO_UNIT", None))
    with can.Bus("waits", interface="virtual") as truck, can.Bus("waits", interface="virtual") as tool, hidzgula.Listener() as hears:
        notifier = can.Notifier(tool, [listener := hidzgula.can.Listener(hears)])
        with CanUnit(truck, ENGINE, 128, settle=0, always=True):
            same("by one who only listens", listener.wait_for(ENGINE, DM1, 10.0, 0).to, 255)
        notifier.stop()


def broken_bus():
    """A bus that cannot send: what it raised is raised where the unit is left."""

    class Full:
        def send(self, msg):
            raise OSError("no buffer space available")

        def recv(self, timeout=None):
            return None

    def left():
        with CanUnit(Full(), ENGINE, 128) as unit:
            unit._thread.join(10)

    same("what it raised", str(raised(left)), "no buffer space available")
    same("no bus", type(raised(CanUnit, 5, ENGINE, 128)), TypeError)
    same("no address", raised(CanUnit, Full(), ENGINE, 254).name, "BAD_SETTING")
    same("no thread is left", [it for it in threading.enumerate() if it.name.startswith("unit ")], [])


waited_for()
broken_bus()
sums()
