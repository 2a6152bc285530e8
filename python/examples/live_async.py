"""A listener and a simulated unit on a bus of python-can by asyncio, over python-can's virtual interface: the first DM1 with a fault."""

import asyncio

import can

import hidzgula
from hidzgula.can_unit import CanUnit


async def first_fault(bus, listener):
    reader = can.AsyncBufferedReader()
    notifier = can.Notifier(bus, [reader], loop=asyncio.get_running_loop())
    async for msg in reader:
        heard = listener.take(msg.arbitration_id, msg.data, int(msg.timestamp * 1_000_000))
        if heard.what is hidzgula.What.LISTED and listener.newest(heard.who, heard.kind).codes:
            notifier.stop()
            return f"{heard.who} | {listener.newest(heard.who, heard.kind)}"


with can.Bus("truck", interface="virtual") as bus, can.Bus("truck", interface="virtual") as truck, hidzgula.Listener() as listener:
    with CanUnit(truck, name=0x1000000001419907, address=128) as unit:
        unit.set(110, 0)
        print(asyncio.run(asyncio.wait_for(first_fault(bus, listener), 10)))
