"""A Listener of python-can, or of fake/can.py in its place: a takeover on a bus in one process, sessions that are answered, what is passed over,
echoes by SocketCAN's flags (fake/socketcan.py), and what is refused. The frames of the units are written here."""

import pathlib
import sys
import threading
import time

import can

import hidzgula
import hidzgula.can
from hidzgula import DM1, DM2, What
from hidzgula.can import BROADCAST_GAP, Listener
from hidzgula.candump import LogReader
from tries import LOGS, lines_of, lists_of, raised, same, sums, with_times

# (behind all others: `can` may be python-can itself)
sys.path.append(str(pathlib.Path(__file__).with_name("fake")))
from socketcan import Interface, Socket  # noqa: E402

ENGINE, SPARE, TOOL = 0x1000000001419907, 0x0000000001419907, 0x90008100258004D2


def message(text, **more):
    """A message of `ID#BYTES`."""
    id, data = text.split("#")
    return can.Message(arbitration_id=int(id, 16), data=bytes.fromhex(data), is_extended_id=True, **more)


def texts(bus):
    """What a bus has received, as `ID#BYTES`."""
    found = []
    while (msg := bus.recv(0.05)) is not None:
        found.append(f"{msg.arbitration_id:08X}#{bytes(msg.data).hex().upper()}")
    return found


def hear(bus, listener):
    """Hands what a bus has received to a listener."""
    while (msg := bus.recv(0.05)) is not None:
        listener.on_message_received(msg)


def takeover():
    """The engine tells of a fault from address 0, a spare one takes the address and tells of another: each stands under its NAME."""
    with can.Bus("takeover", interface="virtual") as truck, can.Bus("takeover", interface="virtual") as tool, hidzgula.Station(1, 249) as station:
        told = []
        listener = Listener(station, tool, lambda change, msg: told.append((change.what, change.name, msg.arbitration_id)))
        listener.start()
        same("it claims and asks for claims", texts(truck), ["18EEFFF9#0100000000000000", "18EAFFF9#00EE00"])
        for text in ("18EEFF00#0799410100000010", "18FECA00#04FF6E000001FFFF", "18EEFF00#0799410100000000", "18FECA00#10FFBE000201FFFF"):
            truck.send(message(text))
        hear(tool, listener)
        same("units", station.units(), [(ENGINE, None, None), (SPARE, 0, None)])
        same("the engine's faults", [str(it) for it in station.messages(ENGINE, DM1)], ["amber; 110/0/1"])
        same("the spare one's", [str(it) for it in station.messages(SPARE, DM1)], ["stop; 190/2/1"])
        same("the changes", [it[:2] for it in told], [(What.CLAIMED, ENGINE), (What.LISTED, ENGINE), (What.CLAIMED, SPARE), (What.LISTED, SPARE)])
        same("with their messages", [it[2] for it in told], [0x18EEFF00, 0x18FECA00, 0x18EEFF00, 0x18FECA00])
        same("nothing more is sent", texts(truck), [])


def session():
    """A DM2 that is asked for and comes in a session, in which the station grants packets."""
    with can.Bus("session", interface="virtual") as truck, can.Bus("session", interface="virtual") as tool, hidzgula.Station(1, 249) as station:
        listener = Listener(station, tool)
        truck.send(message("18EEFF00#0799410100000010"))
        hear(tool, listener)
        listener.ask(ENGINE, hidzgula.PGN_DM2)
        same("it asks", texts(truck), ["18EA00F9#CBFE00"])
        truck.send(message("1CECF900#100E0002FFCBFE00"))
        hear(tool, listener)
        same("it grants", texts(truck), ["1CEC00F9#110201FFFFCBFE00"])
        truck.send(message("1CEBF900#0104FFB80403016E"))
        truck.send(message("1CEBF900#02000001AF000001"))
        hear(tool, listener)
        same("it ends the session", texts(truck), ["1CEC00F9#130E0002FFCBFE00"])
        same("the DM2", [len(it.codes) for it in station.messages(ENGINE, DM2)], [3])
        begun = time.monotonic()
        listener.command(ENGINE, 9)
        same("it takes its time", time.monotonic() - begun >= 2 * BROADCAST_GAP, True)
        same("as the standard has it (J1939-21)", 0.05 <= BROADCAST_GAP <= 0.2, True)
        same("it commands", [text[:8] for text in texts(truck)], ["1CECFFF9", "1CEBFFF9", "1CEBFFF9"])
        listener.ask_all(hidzgula.PGN_DM1)
        same("it asks all", texts(truck), ["18EAFFF9#CAFE00"])
        same("missed", listener.missed(3), hidzgula.Change(What.MISSED, count=3))
        same("it claims again", texts(truck), ["18EEFFF9#0100000000000000", "18EAFFF9#00EE00"])
        same("an order that is refused", raised(listener.ask, ENGINE, hidzgula.PGN_DM2).name, "NO_ADDRESS")


def passed_over():
    with hidzgula.Listener() as station:
        changes = []
        listener = Listener(station, on_change=lambda change, msg: changes.append(change.what))
        claim = "18EEFF00#0799410100000010"
        for more in ({"is_remote_frame": True}, {"is_fd": True}, {"is_error_frame": True}):
            listener.on_message_received(message(claim, **more))
        listener.on_message_received(can.Message(arbitration_id=0x123, data=bytes(8), is_extended_id=False))
        same("nothing was taken", (station.units(), station.counts(), changes), ([], (0, 0), []))
        listener.on_message_received(can.Message(arbitration_id=4, data=bytes([0, 1, 0, 0, 0, 0, 0, 0]), is_error_frame=True))
        same("an overflow", (station.counts().missed, changes), (1, [What.MISSED]))
        listener.on_message_received(can.Message(arbitration_id=4, data=bytes([0, 2, 0, 0, 0, 0, 0, 0]), is_error_frame=True))
        listener.on_message_received(can.Message(arbitration_id=8, data=bytes([0, 1, 0, 0, 0, 0, 0, 0]), is_error_frame=True))
        same("is no other error", station.counts().missed, 1)
        listener(message(claim))
        listener(message("18FEF100#0000000000000000"))
        same("a frame", ([unit.name for unit in station.units()], changes), ([ENGINE], [What.MISSED, What.CLAIMED]))
        listener.start()
        listener.stop()
        same("it is open", station.count(ENGINE, DM1), 0)
    with hidzgula.Station(1, 249) as station:
        same("a station needs a bus", type(raised(Listener, station)), ValueError)
    same("what is refused is raised", raised(listener.on_message_received, message(claim)).name, "NO_LISTENER")
    for call, words in ((listener.ask, (ENGINE, 1)), (listener.ask_all, (1,)), (listener.command, (ENGINE, 9))):
        same("one who only listens asks nobody", type(raised(call, *words)), TypeError)
    with can.Bus("silent", interface="virtual") as bus, hidzgula.Listener() as hears:
        same("nor has it a bus to send on", type(raised(Listener, hears, bus)), ValueError)
    for words, wanted in (((5,), "station"), ((station, 5), "bus"), ((station, None, 5), "on_change")):
        error = raised(Listener, *words)
        same(f"a wrong {wanted}", (type(error), str(error).startswith(f"{wanted} is a ")), (TypeError, True))
    same("in words", repr(listener), "<hidzgula.can.Listener of <hidzgula.Listener, closed>>")


def notified():
    """By python-can's own Notifier, in its thread; orders come from this one."""
    with can.Bus("notified", interface="virtual") as truck, can.Bus("notified", interface="virtual") as tool, hidzgula.Station(1, 249) as station:
        listed = threading.Semaphore(0)
        listener = Listener(station, tool, lambda change, msg: listed.release() if change.what is What.LISTED else None)
        notifier = can.Notifier(tool, [listener])
        listener.start()
        truck.send(message("18EEFF00#0799410100000010"))
        for turn in range(50):
            truck.send(message("18FECA00#04FF6E000001FFFF"))
            same("is listed", listed.acquire(timeout=10), True)
            listener.ask(ENGINE, hidzgula.PGN_DM1)
            same("while it is asked", len(station.messages(ENGINE, DM1)), turn + 1)
        notifier.stop()
        same("what was sent", texts(truck), ["18EEFFF9#0100000000000000", "18EAFFF9#00EE00", *50 * ["18EA00F9#CAFE00"]])


OWN_CLAIM, ALL_CLAIM = "18EEFFF9#0100000000000000", "18EAFFF9#00EE00"
ENGINE_CLAIMS, ENGINE_TELLS, OTHER_CLAIMS = "18EEFF00#0799410100000010", "18FECA00#04FF6E000001FFFF", "18EEFF03#1200000000000000"


def of_own_machine():
    """Units that another program of this machine plays, as `live | canplayer` and cansend do: each of their frames has `is_rx` False."""
    for receives_own in (False, True):
        interface = Interface()
        truck, tool = Socket(interface), Socket(interface, receives_own)
        with hidzgula.Station(1, 249) as station:
            listener = Listener(station, tool)
            listener.start()
            same("it claims and asks for claims", texts(truck), [OWN_CLAIM, ALL_CLAIM])
            truck.send(message(ENGINE_CLAIMS))
            truck.send(message(ENGINE_TELLS))
            interface.wire(message(OTHER_CLAIMS))
            hear(tool, listener)
            same("who is there, and not the station itself", station.units(), [(ENGINE, 0, None), (0x12, 3, None)])
            same("its faults", [str(it) for it in station.messages(ENGINE, DM1)], ["amber; 110/0/1"])
            same("nothing is answered", texts(truck), [OTHER_CLAIMS])
            truck.send(message("18EAFF00#00EE00"))
            hear(tool, listener)
            same("its claim is asked for", texts(truck), [OWN_CLAIM])
            hear(tool, listener)
            same("and is no unit's", len(station.units()), 2)


def echoes():
    """As many are passed over as were sent, by identifier and bytes; what never comes is given up."""
    interface = Interface()
    other, tool = Socket(interface), Socket(interface, True)
    with hidzgula.Station(1, 249) as station:
        listener = Listener(station, tool)
        for _ in range(3):
            listener.ask_all(hidzgula.PGN_ADDRESS_CLAIMED)
        hear(tool, listener)
        same("three echoes", texts(other), 3 * [ALL_CLAIM])
        other.send(message(ALL_CLAIM))
        hear(tool, listener)
        same("a fourth is another's, and is answered", texts(other), [OWN_CLAIM])
        hear(tool, listener)
        listener.ask_all(hidzgula.PGN_ADDRESS_CLAIMED)
        interface.wire(message(ALL_CLAIM))
        hear(tool, listener)
        same("what comes from the wire is no echo", texts(other), [ALL_CLAIM, ALL_CLAIM, OWN_CLAIM])
    tool = Socket(interface)
    with hidzgula.Station(1, 249) as station:
        listener = Listener(station, tool)
        listener.ask_all(hidzgula.PGN_ADDRESS_CLAIMED)
        within, hidzgula.can.ECHO_WITHIN = hidzgula.can.ECHO_WITHIN, 0.0
        listener._sent.clear()
        for _ in range(1000):
            listener.ask_all(hidzgula.PGN_ADDRESS_CLAIMED)
        texts(other)
        same("the latest are waited for", len(listener._sent), hidzgula.can.MOST_ECHOES)
        time.sleep(0.01)
        other.send(message(ALL_CLAIM))
        hear(tool, listener)
        same("an echo that never came is given up", (texts(other), len(listener._sent)), ([OWN_CLAIM], 1))
        hidzgula.can.ECHO_WITHIN = within

        class Full:
            """A bus that sends nothing."""

            def send(self, msg):
                raise OSError("no buffer space available")

        silent = Listener(station, Full())
        same("what could not be sent", type(raised(silent.ask_all, hidzgula.PGN_ADDRESS_CLAIMED)), OSError)
        same("has no echo", len(silent._sent), 0)


def two_listeners():
    """Two stations on one bus of python-can hear each other, where it receives its own messages."""
    interface = Interface()
    tool = Socket(interface, True)
    with hidzgula.Station(1, 249) as one, hidzgula.Station(2, 250) as other:
        listeners = [Listener(one, tool), Listener(other, tool)]
        for listener in listeners:
            listener.start()
        while (msg := tool.recv()) is not None:
            for listener in listeners:
                listener.on_message_received(msg)
        same("each has the other", (one.units(), other.units()), ([(2, 250, None)], [(1, 249, None)]))


def sent_in_a_log():
    """A log of which the program that wrote it sent each frame, as `Tx` of an ASC log says."""
    for log in LOGS:
        with hidzgula.Listener() as station:
            listener, reader = Listener(station), LogReader(lines_of(log))
            while reader.read_part():
                for place in range(reader.part.frames):
                    frame, at = reader.frames[place], reader.logged_at(place)
                    data = bytes(frame.bytes[: frame.length])
                    listener.on_message_received(can.Message(arbitration_id=frame.id, data=data, is_extended_id=True, is_rx=False, timestamp=at.time / 1e6))
                missed = reader.missed(None, False)
                if missed is not None:
                    listener.missed(missed)
            same(f"the lists of {log}", lists_of(station), with_times(log))


takeover()
session()
passed_over()
notified()
of_own_machine()
echoes()
two_listeners()
sent_in_a_log()
sums()
