"""A tester on a bus of python-can, or of fake/can.py in its place, by a thread of its own: each call waits for its verdict."""

import threading
import time

import can

import hidzgula
from hidzgula import DM1, DM2, PGN_DM2, PGN_DM3, PGN_DM11, Code, Delivery, Finding, Sent, Tester
from hidzgula.can_unit import CanUnit
from tries import raised, same, sums

ENGINE, BRAKES = 0x1000000001419907, 0x100000000141990B
OWN = 0x10000000000000FA


def orders():
    with can.Bus("tester", interface="virtual") as truck, can.Bus("tester", interface="virtual") as tool, can.Bus("tester", interface="virtual") as other:
        with CanUnit(truck, ENGINE, 0, settle=0) as engine, CanUnit(other, BRAKES, 11, settle=0, guarded=True) as brakes:
            for spn in range(100, 140):
                engine.set(spn, 3)
                engine.heal(spn, 3)
            with Tester(tool, OWN, 249, grant=16, settle=0) as tester:
                verdict = tester.ask(ENGINE, DM2)
                same("its DM2", (verdict.finding, verdict.pgn, verdict.tries), (Finding.ANSWERED, PGN_DM2, 1))
                same("of 40 codes by session", (len(verdict.message.codes), verdict.message.codes[0]), (40, Code(100, 3, 1)))
                verdict = tester.clear(ENGINE, PGN_DM3)
                same("it clears", (verdict.finding, verdict.left, verdict.is_cleared), (Finding.POSITIVE, Finding.ANSWERED, True))
                same("the guarded one does not", tester.clear(BRAKES, PGN_DM11).finding, Finding.REFUSED)
                same("it obeys", (tester.command(ENGINE, 9).finding, engine.address), (Finding.OBEYED, 9))
                same("nobody", tester.ask(0xA0, DM1).finding, Finding.NO_SUCH_UNIT)
                same("all", tester.ask_all(DM1).finding, Finding.ANSWERED)
                same("a group", raised(tester.ask, ENGINE, 65260).name, "NO_GROUP")
                answers = []
                threads = [threading.Thread(target=lambda name=name: answers.append(tester.ask(name, DM1))) for name in (ENGINE, BRAKES, ENGINE)]
                for it in threads:
                    it.start()
                for it in threads:
                    it.join()
                same("orders of several threads", [it.finding for it in answers], [Finding.ANSWERED] * 3)
                same("it is there", (tester.address, tester.unheard, tester.error, brakes.error), (249, 0, None, None))
                saved, known = tester.save(), [unit.name for unit in tester.units()]
                engine.close()  # (it is silent from now on)
                late = []
                waiting = threading.Thread(target=lambda: late.append(tester.ask(ENGINE, DM1)))
                waiting.start()
                while not tester.is_open and waiting.is_alive():
                    time.sleep(0.001)
            waiting.join()
            same("closed meanwhile", late[0].finding, Finding.CUT_OFF)
            same("closed", (raised(tester.ask, ENGINE, DM1).name, tester.close()), ("NO_STATION", None))
            with Tester.restore(tool, saved, grant=16, settle=0) as tester:
                same("who was saved", ([unit.name for unit in tester.units()], tester.newest(ENGINE, DM2).codes), (known, ()))
                same("who answers then", tester.ask(BRAKES, DM1).finding, Finding.ANSWERED)
            same("no text", type(raised(Tester.restore, tool, b"")), ValueError)


def messages():
    """What one tester sends of a group that both share comes to the other, by NAME and to all; nobody answers at an address without a unit."""
    told = []
    with can.Bus("sends", interface="virtual") as left, can.Bus("sends", interface="virtual") as right:
        with Tester(left, OWN, 249, settle=0, share=(61184,)) as one, Tester(right, ENGINE, 7, settle=0, share=(61184,), on_message=told.append) as other:
            while not any(unit.name == ENGINE and unit.address == 7 for unit in one.units()):
                time.sleep(0.01)
            data = bytes(range(256)) * 4
            same("to a NAME", one.send(pgn=61184, data=data, name=ENGINE), Sent(Delivery.ACKNOWLEDGED))
            same("one frame", one.send(7, 61184, b"abc"), Sent(Delivery.WRITTEN))
            same("to all", one.send(255, 61184, b"123456789"), Sent(Delivery.WRITTEN))
            same("to nobody", one.send(33, 61184, data), Sent(Delivery.SILENT))
            same("another group", raised(one.send, 7, 61440, b"").name, "NO_GROUP")
            time.sleep(0.1)
            same("all came", [(it.data, it.source) for it in told], [(data, 249), (b"abc", 249), (b"123456789", 249)])
            late = []
            waiting = threading.Thread(target=lambda: late.append(one.send(33, 61184, data)))
            waiting.start()
            while one.sent.delivery != Delivery.OPEN and waiting.is_alive():
                time.sleep(0.001)
            other.close()
        waiting.join()
        same("closed meanwhile", late, [Sent(Delivery.CUT_OFF)])
        same("closed", raised(one.send, 33, 61184, data).name, "NO_STATION")


def broken_bus():
    """A bus that cannot send: what it raised is raised by the order, and where the tester is left."""

    class Full:
        def send(self, msg):
            raise OSError("no buffer space available")

        def recv(self, timeout=None):
            return None

    def left():
        with Tester(Full(), OWN, 249, share=(61184,)) as tester:
            same("by the order", str(raised(tester.ask, ENGINE, DM1)), "no buffer space available")
            same("by a message", str(raised(tester.send, 255, 61184, b"abc")), "no buffer space available")

    same("what it raised", str(raised(left)), "no buffer space available")
    same("no bus", type(raised(Tester, 5, OWN, 249)), TypeError)
    same("no address", raised(Tester, Full(), OWN, 254).name, "BAD_SETTING")
    same("no thread is left", [it for it in threading.enumerate() if it.name.startswith("tester ")], [])


orders()
messages()
broken_bus()
sums()
