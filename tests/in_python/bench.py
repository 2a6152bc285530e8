"""A bench: its time and its order, programs under test, what is asserted and how a difference is told, an hour in some seconds; and by lot that no
fault stands under a wrong NAME. Over python-can, over fake/can.py in its place, or without."""

import io
import random
import sys
import threading
import time

import hidzgula
from hidzgula import DM1, DM6, PGN_DM2, PGN_DM6, Lamps, What, bench
from hidzgula.bench import Bench, assert_dm1, assert_dm2, assert_dm6
from tries import raised, same, sums

try:
    import can

    Message = can.Message
except ImportError:
    can, Message = None, bench.Message

ENGINE, SPARE, BRAKE = 0x1000000001419907, 0x0000000001419907, 0x2000000001419907
MOST_SECONDS_OF_AN_HOUR = 2.0


def message(text, **more):
    """A message of `ID#BYTES`."""
    id, data = text.split("#")
    return Message(arbitration_id=int(id, 16), data=bytes.fromhex(data), is_extended_id=len(id) == 8, **more)


def texts(bus, since=0):
    """What was put, from a frame on, each with its microseconds."""
    return [f"{put.time} {put.frame}" for put in list(bus.frames)[since:]]


def said(call, *words, **more):
    """The error that a call raises, by its type and its words."""
    error = raised(call, *words, **more)
    return f"{type(error).__name__}: {error}"


def told(call, *words, **more):
    """The words of the difference that an assertion tells; none where it holds."""
    error = raised(call, *words, **more)
    if isinstance(error, Exception) and not isinstance(error, AssertionError):
        return repr(error)
    return str(error) if isinstance(error, AssertionError) else ""


def time_and_order():
    with Bench() as bus:
        one, other = bus.channel(), bus.channel("gateway", receive_own_messages=True)
        same("a bus of python-can", can is None or isinstance(one, can.BusABC), True)
        for text in ("1CEBFF00#01", "7FF#", "18FECA00#02"):
            one.send(message(text))
        for text in ("18FECA00#03", "0CF00400#04", "100#05"):
            bus.send(text)
        other.send(message("18FECAFF#06"))
        same("nothing goes before the bench runs", (bus.count, bus.now), (0, 0))
        bus.run(seconds=0)
        order = ["18FECA00#03", "0CF00400#04", "100#05", "18FECAFF#06", "1CEBFF00#01", "7FF#", "18FECA00#02"]
        same("the lowest identifier first, each member in its own order", texts(bus), [f"0 {text}" for text in order])
        same("as candump writes it", bus.log(1), "(0000000000.000000) bench 18FECA00#02\n")
        same("what is received", [f"{one.recv(0).arbitration_id:X}" for _ in range(4)], ["18FECA00", "CF00400", "100", "18FECAFF"])
        same("and no more", one.recv(0), None)
        got = [other.recv(0) for _ in range(7)]
        same("its own too", [(msg.arbitration_id, msg.is_rx) for msg in got if not msg.is_rx], [(0x18FECAFF, False)])
        same("a timeout is the bench's", (one.recv(2.5), bus.now, bus.time()), (None, 2_500_000, 2.5))
        bus.after(0.25, bus.send, "18FECA00#07")
        msg = one.recv(1)
        same("a message ends it", (bytes(msg.data), msg.timestamp, bus.now), (b"\7", 2.75, 2_750_000))
        bus.sleep(0.25)
        same("sleep runs it", bus.now, 3_000_000)
        since = bus.count
        one.send(message("18FECA00#09"))
        one.flush_tx_buffer()
        bus.sleep(0)
        same("what waits goes no more once the buffer is emptied", bus.count, since)
        heard = []
        one.add_listener(lambda msg: heard.append((bus.now, msg.arbitration_id)))
        timer = bus.every(0.1, bus.send, "18FECA00#08")
        bus.run(until=3.35)
        timer.cancel()
        bus.run(seconds=1)
        same("each tenth", heard, [(3_000_000 + at * 100_000, 0x18FECA00) for at in (1, 2, 3)])
        same("a condition", (bus.run_until(lambda: bus.now > 10, 5), bus.run_until(lambda: False, 0.65), bus.now), (True, False, 5_000_000))
        cyclic = one.send_periodic(message("18FEF100#01"), 0.5)
        limited = one.send_periodic([message("18FEF200#01"), message("18FEF200#02")], 0.5, 1.0)
        since = bus.count
        bus.run(seconds=1.75)
        cyclic.stop()
        bus.run(seconds=2)
        limited.stop()
        task = bus.channel()._send_periodic_internal([message("18FEF300#00")], 0.5, None, False, lambda msg: msg.data.__setitem__(0, msg.data[0] + 1))
        bus.run(seconds=1)
        task.start()
        bus.run(seconds=0.75)
        task.stop()
        same("one that is begun later, and changed", [str(put.frame) for put in bus.frames][-2:], ["18FEF300#01", "18FEF300#02"])
        places = [(at, number) for at in (0, 500_000, 1_000_000) for number in (0, 1)]
        wanted = [f"{5_000_000 + at} {('18FEF100#01', f'18FEF200#0{1 + at // 500_000 % 2}')[number]}" for at, number in places]
        same("cyclic messages", texts(bus, since)[:-2], [*wanted, "6500000 18FEF100#01"])


def bit_rate():
    """A frame takes the time of its bits, and is heard at its end; what waits meanwhile contends then."""
    with Bench(bitrate=250_000) as bus:
        one, other = bus.channel(receive_own_messages=True), bus.channel()
        one.send(message("18FECA00#0102030405060708"))
        bus.after(0.0003, bus.send, "18FECA01#")
        bus.after(0.0004, other.send, message("0CF00400#01"))
        bus.after(0.0005, one.send, message("100#"))
        bus.run(seconds=0.0005)
        same("it is under way", (bus.count, one.recv(0), bus.now), (0, None, 500))
        bus.run(seconds=1)
        same("one after the other", texts(bus), ["524 18FECA00#0102030405060708", "712 100#", "1012 0CF00400#01", "1280 18FECA01#"])
        same("the own one at its end", one.recv(0).timestamp, 0.000524)
    for rate in (0, 999, 1_000_001):
        same("no such rate", said(Bench, bitrate=rate), f"ValueError: bitrate is {rate}, and may be 1,000 to 1,000,000 bits a second")


def errors():
    with Bench(now=5_000_000) as bus:
        unit = bus.unit(name=ENGINE, address=0)
        for what, call, words, more, wanted in (
            ("a NAME that is taken", bus.unit, (ENGINE, 1), {}, f"the NAME 1000000001419907 is taken, by {unit!r}: no two units of a bus have one NAME (SAE J1939-81)"),
            ("by a station", bus.station, (ENGINE, 1), {}, "the NAME 1000000001419907 is taken"),
            ("a unit without an address", bus.unit, (), {"name": BRAKE}, f"a unit needs an address, 0 to 253: unit(name=0x{BRAKE:016X}, address=128)"),
            ("a NAME of 65 bits alone", bus.unit, (1 << 64,), {}, "name is 18446744073709551616"),
            ("a unit without a NAME", bus.unit, (), {"address": 4}, "a unit needs a NAME of 64 bits: unit(name=0x1000000001419907, address=128)"),
            ("an address that none holds", bus.unit, (BRAKE, 254), {}, "BAD_SETTING"),
            ("a NAME of 65 bits", bus.unit, (1 << 64, 4), {}, "name is 18446744073709551616"),
            ("time that runs back", bus.run, (-0.1,), {}, "-0.1 seconds: time does not run back, and has an end"),
            ("until what was", bus.run, (), {"until": 4}, "time runs back: it is 5.000000 s, and to be run until 4 s"),
            ("time without end", bus.run, (float("inf"),), {}, "inf seconds: time does not run back, and has an end"),
            ("no time", bus.run, (), {}, "run takes seconds, or until"),
            ("a period of nothing", bus.every, (0, print), {}, "a period has one microsecond at least"),
            ("no frame", bus.send, ("18FECA00",), {}, "'18FECA00' is no frame: 8 or 3 digits of identifier, # and the bytes, as 18FECA80#04FF6E000001FFFF"),
            ("an odd digit", bus.send, ("18FECA00#1",), {}, "'18FECA00#1' is no frame"),
            ("nine bytes", bus.send, ("18FECA00#" + 18 * "0",), {}, "9 bytes in a frame, which has 8 at most"),
            ("30 bits", bus.send, ("3FFFFFFF#00",), {}, "an identifier of 3FFFFFFF: 29 bits are wanted"),
            ("12 bits", bus.send, ("FFF#00",), {}, "an identifier of FFF: 11 bits are wanted"),
            ("who is not on it", bus.unplug, (hidzgula.bench.members.Hand(),), {}, " is not on this bus"),
            ("no code", assert_dm1, (bus, ENGINE, [(1,)]), {}, "(1,) is no code: (SPN, FMI) or (SPN, FMI, count), SPN 0 to 524,287, FMI 0 to 31"),
            ("an SPN of 20 bits", assert_dm1, (bus, ENGINE, [(1 << 19, 0)]), {}, "(524288, 0) is no code"),
            ("no lamp", assert_dm1, (bus, ENGINE, []), {"lamps": "red"}, "'red' is no lamp: mil, stop, amber, protect, or 'no lamp'"),
        ):
            error = raised(call, *words, **more)
            same(what, (isinstance(error, ValueError), wanted in str(error)), (True, True))
        same("of nobody", said(assert_dm1, 5, ENGINE, []), "TypeError: codes are asserted of a bench, a station or a listener, and not of 5")
        same("nothing was changed", (bus.now, bus.count, len(bus._members)), (5_000_000, 0, 2))
        channel = bus.channel()
        for what, more in (("remote", {"is_remote_frame": True}), ("error", {"is_error_frame": True}), ("FD", {"is_fd": True})):
            same(what, said(channel.send, message("18FECA00#00", **more)), "ValueError: a bench carries data frames of CAN 2.0: no remote, error or FD frames")
        same("who is called wrong", said(channel.add_listener, 5), "TypeError: a listener is a function, or a Listener of python-can, and not 5")
        found = []
        bus.after(0.5, lambda: found.append(raised(bus.run, 1)))
        empty = bus.channel()
        bus.after(0.5, lambda: (list(iter(lambda: empty.recv(0), None)), found.append(raised(empty.recv, 1))))
        bus.run(seconds=1)
        same("no run in a run", [f"{type(it).__name__}: {it}" for it in found], [
            "RuntimeError: a bench is run by the thread that made it, and not from within a run",
            "RuntimeError: recv in a function that the bench calls: time stands meanwhile; use recv(timeout=0), or start the program by Bench.start"])
        thread = threading.Thread(target=lambda: found.append(raised(bus.run, 1)))
        thread.start()
        thread.join()
        same("nor in another thread", type(found[-1]), RuntimeError)
        channel.shutdown()
        same("who was shut down sends nothing", said(channel.send, message("18FECA00#00")), f"ValueError: {channel.called} was shut down")
        one, other = bus.channel(), bus.channel()
        for member, answer in ((one, "18FEF100#01"), (other, "18FEF100#02")):
            member.add_listener(lambda msg, member=member, answer=answer: member.send(message(answer)))
        bus.send("18FEF100#00")
        same("answers without end", "who answers whom" in str(raised(bus.run, 1)), True)
        bus.unplug(unit)
    same("closed", (said(bus.run, 1), bus.close(), raised(unit.set, 1, 1).name), ("ValueError: the bench is closed", None, "NO_UNIT"))


def programs():
    with Bench(patience=0.3) as bus:
        channel, tool = bus.channel(), bus.channel()

        def answers(bus_of_program, sleep):
            while True:
                msg = bus_of_program.recv(timeout=1.0)
                if msg is None:
                    bus_of_program.send(message("18FEF100#00"))
                else:
                    sleep(0.01)
                    bus_of_program.send(message(f"18FEF2{msg.data[0]:02X}#01"))

        thread = bus.start(answers, channel, bus.sleep)
        bus.run(seconds=2.5)
        tool.send(message("18FEF300#07"))
        tool.send(message("18FEF300#08"))
        bus.run(seconds=1)
        same("a program by turns", texts(bus), ["1000000 18FEF100#00", "2000000 18FEF100#00", "2500000 18FEF300#07", "2500000 18FEF300#08", "2510000 18FEF207#01", "2520000 18FEF208#01"])
        bus.start(lambda: 1 // 0)
        same("what it raises", type(raised(bus.run, 1)), ZeroDivisionError)
        slow = threading.Event()
        bus.start(slow.wait)
        same("one that waits by another clock", "took more than 0.3 s" in str(raised(bus.run, 1)), True)
        slow.set()
        bus.run(seconds=1)
    same("a program ends with the bench", (thread.join(5), thread.is_alive()), (None, False))
    if can is not None:
        notified()


def notified():
    """By python-can's Notifier, in its thread: what it does at a message is done at that moment."""
    with Bench() as bus:
        channel = bus.channel()

        class Gateway(can.Listener):
            def on_message_received(self, msg):
                channel.send(message(f"18FEF2{msg.data[0]:02X}#01"))

        notifier = can.Notifier(channel, [Gateway()])
        begun = time.monotonic()
        while bus._turns.moment(0) is None and time.monotonic() - begun < 5:
            time.sleep(0.01)
        for second in range(20):
            bus.after(second, bus.send, f"18FEF300#{second:02X}")
        bus.run(seconds=30)
        notifier.stop()
        wanted = [f"{second * 1_000_000} {text}" for second in range(20) for text in (f"18FEF300#{second:02X}", f"18FEF2{second:02X}#01")]
        same("a Notifier", texts(bus), wanted)


def devices():
    """A device that is a function: of frames and moments, and what it answers goes as any frame does."""
    with Bench() as bus:
        heard = []

        def gateway(frame, now):
            heard.append((None if frame is None else str(frame), now))
            if frame is None:
                return ["18FEF101#00", (0x18FEF001, b"\1")] if now < 1 else None
            return [frame._replace(id=frame.id + 1)] if frame.id == 0x18FEF200 else ()

        device = bus.device(gateway, each=0.5)
        bus.after(0.25, bus.send, "18FEF200#02")
        bus.after(0.3, bus.send, "7FF#")
        bus.run(seconds=1)
        wanted = [f"{at} {text}" for at, text in ((0, "18FEF101#00"), (0, "18FEF001#01"), (250_000, "18FEF200#02"), (250_000, "18FEF201#02"), (300_000, "7FF#"),
                                                  (500_000, "18FEF101#00"), (500_000, "18FEF001#01"))]  # fmt: skip
        same("what it answers", texts(bus), wanted)
        same("what it is handed", heard, [(None, 0.0), ("18FEF200#02", 0.25), ("7FF#", 0.3), (None, 0.5), (None, 1.0)])
        device.send("18FEF301#")
        bus.unplug(device)
        bus.run(seconds=5)
        same("who is unplugged is called no more", (len(heard), bus.count), (5, 7))
        same("of what it is called", (device.called, bus.device(gateway, called="pump").called), ("device 1", "pump"))
    lists = "which is none: wanted is a list of frames, each as 18FECA80#04FF or (0x18FECA80, bytes)"
    digits, most = "is no frame: 8 or 3 digits of identifier, # and the bytes, as 18FECA80#04FF6E000001FFFF", "9 bytes in a frame, which has 8 at most"
    for what, answer, wanted in (("a frame that stands alone", (1, b""), lists), ("a number", 5, lists), ("no frame", ["18FEF101"], digits), ("nine bytes", [(1, bytes(9))], most),
                                 ("of four", [(1, b"", True, 0)], lists), ("a text", "18FEF101#", lists)):
        with Bench() as bus:
            bus.device(lambda frame, now, answer=answer: answer)
            bus.send("18FEF200#")
            told_so = said(bus.run, 1)
            same(what, (told_so.split(":")[0], told_so.endswith(wanted)), ("ValueError", True))
            same("a period of nothing", said(bus.device, print, each=0), "ValueError: a period has one microsecond at least")


def units():
    with Bench() as bus:
        station = bus.station()
        unit = bus.unit(name=ENGINE, address=128)
        bus.run(seconds=1)
        same("it claims", [str(it) for it in station.units()], [f"{ENGINE:016X} at 128"])
        same("the station claims and asks all for theirs", [str(put.frame) for put in bus.frames if put.by == station.called], ["18EEFFF9#0100000000000000", "18EAFFF9#00EE00"])
        assert_dm1(bus, unit, None)
        unit.set(110, 0)
        unit.lamps(0x04)
        bus.run(seconds=1)
        for of in (bus, station, bus.listener):
            same("a fault is seen within a second", told(assert_dm1, of, unit, [(110, 0)], "amber"), "")
        same("it answers the message", assert_dm1(station, ENGINE, [(110, 0, 1)], Lamps(0x04, 0xFF)).codes, (hidzgula.Code(110, 0, 1),))
        unit.set(190, 2)
        unit.pend(520, 3)
        bus.run(seconds=2)
        assert_dm1(station, unit, [(190, 2), (110, 0)], ("amber",))
        unit.heal(110, 0)
        station.ask(ENGINE, PGN_DM2)
        bus.run(seconds=1)
        station.ask(ENGINE, PGN_DM6)
        same("it is waited for", bus.wait_for(unit, DM6, 1).codes, (hidzgula.Code(520, 3, 1),))
        assert_dm2(station, unit, [(110, 0)])
        assert_dm6(bus, unit, [(520, 3)])
        same("what never comes", (type(raised(bus.wait_for, BRAKE, DM1, 1)), "18FECA80" in str(raised(bus.wait_for, BRAKE, DM1, 1))), (TimeoutError, True))
        reply, counted = station.ask_all(PGN_DM2), station.count(ENGINE, hidzgula.DM2)
        bus.run(seconds=1)
        same("all are asked", ([str(it) for it in reply.frames], station.count(ENGINE, hidzgula.DM2)), (["18EAFFF9#CBFE00"], counted + 1))
        station.command(ENGINE, 9)
        bus.run(seconds=1)
        same("it is commanded", [unit.address for unit in station.units()], [9])
        same("in packets", [put.time for put in bus.frames if put.by == station.called][-3:], [at + bus.now - 1_000_000 for at in (0, 50_000, 100_000)])
        bus.unplug(unit)
        since = bus.count
        bus.run(seconds=5)
        same("who is unplugged is silent", bus.count, since)
        with hidzgula.Listener() as listener:
            hidzgula.take_log(listener, bus.log().encode())
            same("its log is one of candump", listener.messages(ENGINE, DM1), bus.listener.messages(ENGINE, DM1))
        same("what changed for the station", [change.what for _, change in station.changes][:2], [What.CLAIMED, What.LISTED])


def differences():
    """The words of a difference."""
    with Bench() as bus:
        station, unit = bus.station(), bus.unit(name=ENGINE, address=128)
        bus.run(seconds=1)
        silent = told(assert_dm1, bus, unit, [(110, 0)])
        same("none came", silent.splitlines()[:3], ["DM1 of 1000000001419907 at 128:", "  none came", "the last frames, now 1.000000 s:"])
        same("the frames", [line for line in silent.splitlines() if "18EEFF80" in line][:1], ["(0000000000.000000) bench 18EEFF80#0799410100000010"])
        unit.set(110, 0)
        bus.run(seconds=2)
        unit.heal(110, 0)
        unit.set(190, 2)
        unit.lamps(0x10)
        bus.run(seconds=2)
        text = told(assert_dm1, station, unit, [(110, 0), (191, 2)], "amber")
        found = bus.since(ENGINE, DM1)
        same("which one it is", found.message, bus.listener.newest(ENGINE, DM1))
        gone, codes = found.gone[110, 0], found.codes[190, 2]
        same("since when", (3_000_000 <= gone <= 3_500_000, gone == codes, found.lamps >= gone, found.newest > gone), (True, True, True, True))

        def said(at):
            return f"{at // 1_000_000}.{at % 1_000_000:06} s"

        wanted = [f"  lacks 110/0, gone since {said(gone)}", "  lacks 191/2", f"  has 190/2/1 too, since {said(codes)}",
                  f"  lamps: amber wanted, stop (10FF) told, since {said(found.lamps)}"]
        same("a difference", text.splitlines()[1:5], wanted)
        number = station.count(ENGINE, DM1)
        same("the newest", text.splitlines()[5], f"  the newest, number {number} at {said(found.newest)}: stop (10FF); 190/2/1")
        same("the last 20 frames", text.splitlines()[7:], bus.log(20).splitlines())
        same("a count", told(assert_dm1, station, unit, [(190, 2, 3)]).splitlines()[1:3], ["  lacks 190/2/3", f"  has 190/2/1 too, since {said(codes)}"])
        same("one came", told(assert_dm1, bus, unit, None).splitlines()[1], "  one came, and none was wanted")
        same("who never claimed", told(assert_dm2, bus, BRAKE, []).splitlines()[:2], ["DM2 of 2000000001419907, which never claimed an address:", "  none came, wanted was one without codes"])
        same("lamps by their bytes", "lamps: amber (04FF) wanted, stop (10FF) told" in told(assert_dm1, bus, unit, [(190, 2)], Lamps(4, 255)), True)
        with hidzgula.Station(1, 249) as alone:
            same("without a bench", told(assert_dm1, alone, ENGINE, [(1, 2)]).splitlines(), ["DM1 of 1000000001419907, which never claimed an address:", "  none came"])


def withdrawn():
    """At the moment of a unit's DM1 another one claims its address: the DM1, which lost arbitration to the claim, goes no more, or behind the claim of
    the one who keeps the address."""
    for second, name, bitrate in ((second, name, bitrate) for second in range(1, 5) for name in (SPARE, BRAKE) for bitrate in (None, 250_000)):
        for later in (-1, 0, 1):
            with Bench(bitrate=bitrate) as bus:
                station, unit = bus.station(), bus.unit(name=ENGINE, address=128)
                unit.set(110, 0)
                bus.run(seconds=1)
                first = next(put.time for put in bus.frames if str(put.frame).startswith("18FECA80"))
                bus.run(until=first / 1_000_000 + second - 0.01)
                bus.after(0.01 + later / 1_000_000, lambda name=name: bus.unit(name=name, address=128).set(190, 2))
                bus.run(seconds=3)
                for lists in (station, bus.listener):
                    spns = [{code.spn for it in lists.messages(who, DM1) for code in it.codes} for who in (ENGINE, name)]
                    same("each under its NAME", spns, [{110}, {190} if name == SPARE else set()])
                if bitrate is None:
                    same("as many as went", station.count(ENGINE, DM1), second + (later > 0) if name == SPARE else second + 3)


def by_lot(seed, steps=60):
    """Units that contend for three addresses, come, go, and have faults of their own: none stands under another's NAME."""
    lot = random.Random(seed)
    with Bench(bitrate=lot.choice((None, 250_000, 20_000))) as bus:
        station, names, units = bus.station(), [0x10 + at for at in range(5)], {}
        for _ in range(steps):
            name = lot.choice(names)
            if name not in units:
                units[name] = bus.unit(name=name, address=lot.randrange(3), settle=lot.choice((0, 250_000)), always=lot.random() < 0.5)
            unit, code = units[name], (name * 16 + lot.randrange(4), lot.randrange(4))
            lot.choice((lambda: unit.set(*code), lambda: unit.set(*code), lambda: raised(unit.heal, *code), lambda: raised(unit.begin, lot.choice((1, 2, 6))),
                        lambda: unit.pend(*code), lambda: raised(station.ask, name, PGN_DM2), lambda: raised(station.command, name, lot.randrange(3)),
                        lambda: bus.unplug(units.pop(name))))()
            bus.run(seconds=lot.choice((0, 0.0001, 0.05, 0.25, 1.0, lot.random())))
        bus.run(seconds=5)
        wrong = [(name, kind, code) for lists in (station, bus.listener) for name in names for kind in (1, 2, 6) for it in lists.messages(name, kind) for code in it.codes if code.spn // 16 != name]
        same(f"by lot, seed {seed}", wrong, [])
        return sum(station.count(name, 1) for name in names)


def an_hour():
    """An hour of a bus with two units and a station takes some seconds at most."""
    with Bench() as bus:
        station, one, other = bus.station(), bus.unit(name=ENGINE, address=0), bus.unit(name=BRAKE, address=11)
        one.set(110, 0)
        other.set(190, 2)
        begun = time.process_time()
        bus.run(seconds=3600)
        took = time.process_time() - begun
        same("an hour", (bus.now, station.count(ENGINE, DM1) >= 3599, station.count(BRAKE, DM1) >= 3599), (3_600_000_000, True, True))
        same(f"in {took:.1f} s, wanted {MOST_SECONDS_OF_AN_HOUR} at most", took <= MOST_SECONDS_OF_AN_HOUR, True)
        if "--hour" in sys.argv:
            print(f"an hour with two units: {bus.count} frames in {took:.2f} s")
            return
        text = io.StringIO()
        rows = hidzgula.rows_of(station, newest=True)
        same("rows", [(row["name"], row["kind"], row["spn"], row["fmi"]) for row in rows], [(f"{ENGINE:016X}", "DM1", 110, 0), (f"{BRAKE:016X}", "DM1", 190, 2)])
        same("as many", hidzgula.write_csv(bus.listener, text, newest=True), 2)
        same("as CSV", text.getvalue().splitlines()[:2], ["name,address,kind,place,to,lamps,states,flashes,spn,fmi,count", f"{ENGINE:016X},0,DM1,{bus.listener.count(ENGINE, DM1) - 1},255,no lamp,0,255,110,0,1"])
        same("all of them", len(hidzgula.rows_of(bus.listener)), bus.listener.count(ENGINE, DM1) + bus.listener.count(BRAKE, DM1))


if "--hour" in sys.argv:
    an_hour()
    sys.exit()
time_and_order()
bit_rate()
errors()
programs()
devices()
units()
differences()
withdrawn()
same("messages by lot", sum(by_lot(seed) for seed in range(40)) > 1000, True)
an_hour()
sums()
