"""Logs of several buses."""

import json
import re

from logs.common import CLAIM, MESSAGE, SHOWN, log_of, run, same


def one_bus():
    """The first bus, or the one that is named; the others are counted."""
    text = CLAIM + MESSAGE.replace(b"can0", b"can1") + CLAIM.replace(b"can0", b"can1") + MESSAGE.replace(b"can0", b"can1")
    first, second = run(["watch"], text)[1], run(["watch", "--bus", "can1"], text)[1]
    found = [] if "other bus 3" in first and "dm1" not in first else [first]
    return found + ([] if "other bus 1" in second and SHOWN in second else [second])


# Two buses with another unit at address 0 each, a session of each to its own tool, a bad line, frames that one of them lost.
TWO_BUSES = b"""(1.000000) can0 18EEFF00#A000000000000000
(1.000100) can1 18EEFF00#B000000000000000
(1.100000) can0 1CECF900#100A0002FFCBFE00
(1.200000) can1 1CECF900#100A0002FFCBFE00
(1.300000) can0 1CEBF900#0104FFB804030164
(1.400000) can1 1CEBF900#0100FF6E00000164
(1.500000) can1 1CEBF900#02000501FFFFFFFF
(1.600000) can0 1CEBF900#02000501FFFFFFFF
(1.700000) can0 18E8FF00#01FFFFFFF9CCFE00
DROPCOUNT: dropped 7 CAN frames on 'can1' socket (total drops 7)
(1.800000) can1 18FECA00#04FFB8040301FFFF
(1.900000) can0 18FECA00#04
(x
(2.000000) vcan2 18EEFF21#C000000000000000
(2.100000) can0 123#00
"""
EACH_BUS = """1.000000 can0 unit 00000000000000A0 (function 0 instance 0, manufacturer 0, identity 160) at 0
1.000100 can1 unit 00000000000000B0 (function 0 instance 0, manufacturer 0, identity 176) at 0
1.500000 can1 dm2 00000000000000B0 no lamp (00FF); 110/0/1 100/5/1 to 249(F9) (110/0: above normal, most severe) (100/5: current below normal or open circuit)
1.600000 can0 dm2 00000000000000A0 amber (04FF); 1208/3/1 100/5/1 to 249(F9) (1208/3: voltage above normal or shorted high) (100/5: current below normal or open circuit)
1.700000 can0 ack 00000000000000A0: negative, to 249(F9), of 65228 (DM3)
1.500000 can1 missed 7: no owner is known until units claim again (cansend can0 18EAFFFE#00EE00)
1.800000 can1 dm1 address 0, no claim seen since gap 1: amber (04FF); 1208/3/1 (1208/3: voltage above normal or shorted high)
1.900000 can0 unread 1: dm1 of 00000000000000A0: bad length
1.900000 can0 missed 1: no owner is known until units claim again (cansend can0 18EAFFFE#00EE00)
1.800000 can1 missed 1: no owner is known until units claim again (cansend can0 18EAFFFE#00EE00)
2.000000 vcan2 unit 00000000000000C0 (function 0 instance 0, manufacturer 0, identity 192) at 33(21)
can0 00000000000000A0    none      0      1      0    - -; function 0 instance 0, manufacturer 0, identity 160
can0 missed 1 unread 1
can1 00000000000000B0    none      0      1      0    - -; function 0 instance 0, manufacturer 0, identity 176
can1 address 0, no claim seen since gap 1      1      0      0    1 amber (04FF)
can1   ever dm1: amber 1 time, first 1.800000, last 1.800000; last heard 1.800000
can1   ever dm1: 1208/3 1 time, first 1.800000, last 1.800000 (1208/3: voltage above normal or shorted high)
can1 missed 8 unread 0
vcan2 00000000000000C0  33(21)      0      0      0    - -; function 0 instance 0, manufacturer 0, identity 192
vcan2 missed 0 unread 0
lines 15 frames 12 bad 1; not J1939: 11-bit 1, remote 0, CAN FD 0, error 0; other bus 0; not attributed 1
"""
EACH_BUS_CSV = """name,address,kind,first_time,last_time,entries,lamps,spn,fmi,count,contested,to,bus,function,instance,manufacturer,identity,unit_text,code_text,name_hex,ever_lamp,ever_lamp_times,ever_lamp_first,ever_lamp_last,last_heard,silent,ever_code_times,ever_code_first,ever_code_last,fmi_text,not_read,vin,component,software,ecu
00000000000000A0,,dm2,1.600000,1.600000,1,04FF,1208,3,1,false,249,can0,0,0,0,160,,,0x00000000000000A0,,,,,,,,,,voltage above normal or shorted high,,,,,
00000000000000A0,,dm2,1.600000,1.600000,1,04FF,100,5,1,false,249,can0,0,0,0,160,,,0x00000000000000A0,,,,,,,,,,current below normal or open circuit,,,,,
00000000000000B0,,dm2,1.500000,1.500000,1,00FF,110,0,1,false,249,can1,0,0,0,176,,,0x00000000000000B0,,,,,,,,,,"above normal, most severe",,,,,
00000000000000B0,,dm2,1.500000,1.500000,1,00FF,100,5,1,false,249,can1,0,0,0,176,,,0x00000000000000B0,,,,,,,,,,current below normal or open circuit,,,,,
"address 0, no claim seen since gap 1",0,dm1,1.800000,1.800000,1,04FF,1208,3,1,false,,can1,,,,,,,,amber,1,1.800000,1.800000,1.800000,,1,1.800000,1.800000,voltage above normal or shorted high,,,,,
00000000000000C0,33,,,,,,,,,,,vcan2,0,0,0,192,,,0x00000000000000C0,,,,,,,,,,,,,,,
"""
# The same of examples/logs/07-two-buses.log: other units at one address of two buses, asked by one tool at the same time.
TWO_UNITS_AT_0 = """1792922400.050000 can0 unit 1000000001419907 (function 0 instance 0, manufacturer 10, identity 104711) at 0
1792922400.050100 can1 unit 1000010001419907 (function 1 instance 0, manufacturer 10, identity 104711) at 0
1792922400.080000 can0 unit 90008100255804D2 (function 129 (industry group 1, vehicle system 0) instance 0, manufacturer 298, identity 1574098) at 249(F9)
1792922400.080100 can1 unit 90008100255804D2 (function 129 (industry group 1, vehicle system 0) instance 0, manufacturer 298, identity 1574098) at 249(F9)
1792922401.000000 can0 dm1 1000000001419907 amber (04FF); 110/0/1 (110/0: above normal, most severe)
1792922401.000400 can1 dm1 1000010001419907 no lamp (00FF); -
1792922402.330500 can1 dm2 1000010001419907 no lamp (00FF); 100/1/1 101/1/1 to 249(F9) (100/1: below normal, most severe) (101/1: below normal, most severe)
1792922402.330900 can0 dm2 1000000001419907 amber (04FF); 1208/3/1 100/5/1 to 249(F9) (1208/3: voltage above normal or shorted high) (100/5: current below normal or open circuit)
1792922403.000400 can1 dm1 1000010001419907 amber (04FF); 101/1/1 (101/1: below normal, most severe)
can0 1000000001419907       0      3      1      0    1 amber (04FF); function 0 instance 0, manufacturer 10, identity 104711
can0   ever dm1: amber 1 time, first 1792922401.000000, last 1792922403.000000; last heard 1792922403.000000
can0   ever dm1: 110/0 1 time, first 1792922401.000000, last 1792922403.000000 (110/0: above normal, most severe)
can0 90008100255804D2 249(F9)      0      0      0    - -; function 129 (industry group 1, vehicle system 0) instance 0, manufacturer 298, identity 1574098
can0 missed 0 unread 0
can1 1000010001419907       0      3      1      0    1 amber (04FF); function 1 instance 0, manufacturer 10, identity 104711
can1   ever dm1: amber 1 time, first 1792922403.000400, last 1792922403.000400; last heard 1792922403.000400
can1   ever dm1: 101/1 1 time, first 1792922403.000400, last 1792922403.000400 (101/1: below normal, most severe)
can1 90008100255804D2 249(F9)      0      0      0    - -; function 129 (industry group 1, vehicle system 0) instance 0, manufacturer 298, identity 1574098
can1 missed 0 unread 0
lines 22 frames 22 bad 0; not J1939: 11-bit 0, remote 0, CAN FD 0, error 0; other bus 0; not attributed 0
"""


def each_bus():
    """Each bus has units of its own, and a line says its bus: in text behind the time, in JSON and CSV last."""
    told = "line 13: no time (SECONDS.MICROSECONDS)\n"
    found = same(run(["watch", "--bus", "all"], TWO_BUSES), (3, EACH_BUS, told), "text")
    found += same(run(["watch", "--bus", "all"], log_of("07-two-buses")), (0, TWO_UNITS_AT_0, ""), "two units at one address")
    found += same(run(["watch", "--bus", "all", "--format", "csv"], TWO_BUSES), (3, EACH_BUS_CSV, told), "csv")
    *changes, report = [json.loads(line) for line in run(["watch", "--bus", "all", "--format", "json"], TWO_BUSES)[1].splitlines()]
    found += same([(change["time"], change["bus"]) for change in changes], [tuple(line.split()[:2]) for line in EACH_BUS.splitlines()[:11]], "changes in JSON")
    said = ("function", "instance", "manufacturer", "identity", "ever")
    found += same({[key for key in one if key not in said][-1] for one in [*changes, *report["rows"]]}, {"bus"}, "the last key but what a NAME says")
    found += same([row["bus"] for row in report["rows"]], ["can0", "can1", "can1", "vcan2"], "rows in JSON")
    found += same([list(bus.values()) for bus in report["buses"]], [["can0", 1, 1], ["can1", 8, 0], ["vcan2", 0, 0]], "buses")
    found += same([report["missed"], report["unread"], list(report)[-3:]], [9, 1, ["buses", "broken", "open"]], "report")
    acknowledged = {"line": 9, "time": "1.700000", "event": "ack", "name": "00000000000000A0", "control": 1, "pgn": 65228, "answer": "negative", "requester": 249, "bus": "can0"}
    found += same([change for change in changes if change["event"] == "ack"], [acknowledged], "acknowledgment")
    found += same([change["why"] for change in changes if change["event"] == "unread"], ["bad length"], "why it is unread")
    for bus in ("can0", "can1"):
        alone = run(["watch", "--bus", bus], TWO_BUSES)[1].splitlines()[:-1]
        of_it = [line.split(maxsplit=2) for line in EACH_BUS.splitlines()]
        of_it = [f"{words[0]} {words[2]}" if words[1] == bus else " ".join(words[1:]) for words in of_it if bus in words[:2]]
        found += same([" ".join(line.split()) for line in of_it], [" ".join(line.split()) for line in alone], bus)
    return found


def buses_too_many():
    """Of more than 16 buses those of the further ones are counted as of another bus."""
    text = "".join(f"(1.{n:06d}) can{n} 18EEFF00#{n:02X}00000000000000\n" for n in range(20)).encode()
    out = run(["watch", "--bus", "all"], text)[1]
    return same([len(out.splitlines()), "other bus 4;" in out, "can15 " in out, "can16 " in out], [49, True, True, False], "lines") if out else ["nothing"]


def buses_have_one_ceiling():
    """As many runs are kept of whichever buses change: the eleventh is told to be one too many, and then the eleventh after that."""
    found = []
    for bus in (["can0"], ["can1"], ["can0", "can1"]):
        lines = ["(1.000000) can0 18EEFF00#A000000000000000", "(1.100000) can1 18EEFF00#B000000000000000"]
        lines += [f"({2 + at}.000000) {bus[at % len(bus)]} 18FECA00#04FF{at + 1:02X}040301FFFF" for at in range(25)]
        status, out, said = run(["watch", "--bus", "all", "--keep", "10"], "".join(f"{it}\n" for it in lines).encode())
        told = re.findall(r"(?m)^over at line (\d+), so far:$", out)
        found += same((status, told, said.count("more than is kept at once")), (3, ["13", "23"], 1), f"a ceiling where {bus} changes")
    return found


def half_is_free_when_begun_anew():
    """Where the units of four buses hold 250 addresses each, new NAMEs begin a watch of 512 NAMEs anew each 1,048 and not at each line."""
    lines = [f"(1.{at % 1000:03}000) can{at % 4} 18EEFF{at // 4 % 250:02X}#{at + 1:016X}\n" for at in range(8000)]
    status, out, said = run(["watch", "--bus", "all", "--most", "512"], "".join(lines).encode())
    told = [int(it) for it in re.findall(r"(?m)^over at line (\d+), so far:$", out)]
    gaps = [last - first for first, last in zip(told, told[1:])]
    return same((status, told[:1], set(gaps), said.count("more than is kept at once")), (3, [2049], {1048}, 1), "half is free")


# A unit that left address 0 for 1, and addresses that nobody claimed; frames of that bus are lost twice. Where @ stands, the other bus has 20 other messages, so that the watches are begun anew.
GAPS_AND_OWNERS = """(1.000000) can0 18EEFF00#A000000000000000
(1.100000) can1 18EEFF00#B000000000000000
(1.200000) can0 18FECA21#04FF64000101FFFF
DROPCOUNT: dropped 2 CAN frames on 'can0' socket (total drops 2)
(2.000000) can0 18EEFF00#A000000000000000
(2.100000) can0 18EEFF01#A000000000000000
(2.200000) can0 18FECA00#04FF65000101FFFF
(2.300000) can0 18FECA21#04FF64000101FFFF
@
(4.000000) can0 18FECA00#04FF66000101FFFF
(4.100000) can0 18FECA21#04FF64000101FFFF
DROPCOUNT: dropped 3 CAN frames on 'can0' socket (total drops 5)
(5.000000) can0 18FECA21#04FF64000101FFFF
"""
GONE_ON = ["1.200000 can0 dm1 address 33(21), no claim seen: amber (04FF); 100/1/1", "2.200000 can0 dm1 00000000000000A0 amber (04FF); 101/1/1",
           "2.300000 can0 dm1 address 33(21), no claim seen since gap 1: amber (04FF); 100/1/1", "4.000000 can0 dm1 00000000000000A0 amber (04FF); 102/1/1",
           "4.100000 can0 dm1 address 33(21), no claim seen since gap 1: amber (04FF); 100/1/1",
           "5.000000 can0 dm1 address 33(21), no claim seen since gap 2: amber (04FF); 100/1/1"]


def gaps_and_owners_go_on():
    """Begun anew, the watches number gaps on, and know who owns an address that its unit has left; and what is missed is counted on."""
    many = "\n".join(f"(3.{at:06}) can1 18FECA00#04FF{at + 1:02X}000101FFFF" for at in range(20))
    status, out, said = run(["watch", "--bus", "all", "--keep", "20"], GAPS_AND_OWNERS.replace("@", many).encode())
    told = [line[: line.rindex(" (")] for line in out.splitlines() if re.match(r"[0-9.]+ can0 dm1 ", line)]
    found = same((status, said.count("more than is kept at once"), told), (3, 1, GONE_ON), "what is told")
    return found + same(re.findall("(?m)^can0 (00000000000000A0 +[^ ]+|missed [0-9]+)", out), ["00000000000000A0       1", "missed 2", "00000000000000A0    none", "missed 5"], "reports")
