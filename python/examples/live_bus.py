"""A live bus in one process (python-can's virtual interface): on one side the frames of two units, on the other side the station. The engine
tells of a fault from address 0; then a spare one with a lower NAME takes that address and tells of another fault."""

import threading

import can

import hidzgula
from hidzgula.can import Listener

FRAMES = """18EEFF00#0799410100000010 18FECA00#04FF6E000001FFFF
            18EEFF00#0799410100000000 18FECA00#10FFBE000201FFFF""".split()
seen = threading.Semaphore(0)


def tell(change, message):
    print(change.what.name, f"{change.name:016X} at {change.address}")
    seen.release()


with can.Bus("truck", interface="virtual") as truck, can.Bus("truck", interface="virtual") as tool:
    with hidzgula.Station(name=1, address=249) as station:
        listener = Listener(station, tool, tell)
        notifier = can.Notifier(tool, [listener])
        listener.start()
        for frame in FRAMES:
            id, data = frame.split("#")
            truck.send(can.Message(arbitration_id=int(id, 16), data=bytes.fromhex(data), is_extended_id=True))
            seen.acquire(timeout=5)
        notifier.stop()
        for unit in station.units():
            print(unit, *station.messages(unit.name, hidzgula.DM1), sep=" | ")
