"""Diagnostic messages beside DM1, DM2 and DM6, and identifications, by hand: what `decode` says of a payload, and what JSON has of it."""

import json

from diagnostic_logs import frames
from logs.common import run, same

# The group, the payload, what is said of it, and what JSON has of it.
PAYLOADS = [
    (65236, "04FFB8040301FFFF", "DM12: amber (04FF); 1208/3/1 (1208/3: voltage above normal or shorted high)",
     {"lamps": "04FF", "codes": [{"spn": 1208, "fmi": 3, "count": 1, "fmi_text": "voltage above normal or shorted high"}]}),
    (64949, "00FF00000000FFFF", "DM23: no lamp (00FF); -", {"lamps": "00FF", "codes": []}),
    (64896, "04FFB80403816E000001", "DM28: amber (04FF); (4 bytes of an older conversion method: FMI 3, count 1) 110/0/1 (110/0: above normal, most severe)", None),
    (64896, "04", "DM28: cannot be read: bad length", {}),
    # Two active codes and one before, OBD compliance 20; misfire and the fuel system are tested, the components not yet; of the others EGR is (bit 8 of byte
    # 5), and the particulate filter (bit 5 of byte 6) is not.
    (65230, "0201144780100010", "DM5: active codes=2, previously active codes=1, OBD compliance=20, misfire=complete, fuel system=complete, "
     "comprehensive component=not complete, EGR/VVT system=complete, particulate filter=not complete", None),
    (65230, "FFFEFF0000000000", "DM5: active codes=not available, previously active codes=error, OBD compliance=not available",
     {"values": [{"name": "active codes", "state": "not available"}, {"name": "previously active codes", "state": "error"}, {"name": "OBD compliance", "state": "not available"}]}),
    (65230, "0201", "DM5: active codes=2, previously active codes=1; 6 of 8 bytes missing",
     {"values": [{"name": "active codes", "value": 2}, {"name": "previously active codes", "value": 1}], "bytes_missing": 6}),
    (65230, "", "DM5: -; 8 of 8 bytes missing", {"values": [], "bytes_missing": 8}),
    # 300 s, 5 warm-ups; the catalyst (bit 1 of byte 5) is done, the cold start aid (bit 1 of byte 6, which has the ninth bit) is not.
    (64952, "2C01050001080008", "DM26: time since engine start=300 s, warm-ups since codes were cleared=5, catalyst=complete, NOx catalyst/adsorber=not complete", None),
    (49408, "D20401003C00FFFF", "DM21: distance with MIL on=1234 km, distance since codes were cleared=1 km, time with MIL on=60 min, time since codes were cleared=not available",
     {"values": [{"name": "distance with MIL on", "value": 1234, "unit": "km"}, {"name": "distance since codes were cleared", "value": 1, "unit": "km"},
                 {"name": "time with MIL on", "value": 60, "unit": "min"}, {"name": "time since codes were cleared", "state": "not available", "unit": "min"}]}),
    # SPN 3064 is F8 0B and 0 above; SPN 520192 is 00 F0 and 7 above, in the highest bits of the third byte.
    (49664, "05000300F80B1F0100020000F0E0FFFF0400", "DM20: ignition cycles=5, OBD conditions met=3; SPN=3064, numerator=1, denominator=2; "
     "SPN=520192, numerator=not available, denominator=4",
     {"values": [{"name": "ignition cycles", "value": 5}, {"name": "OBD conditions met", "value": 3}],
      "records": [[{"name": "SPN", "value": 3064}, {"name": "numerator", "value": 1}, {"name": "denominator", "value": 2}],
                  [{"name": "SPN", "value": 520192}, {"name": "numerator", "state": "not available"}, {"name": "denominator", "value": 4}]]}),
    (49664, "05000300F80B1F", "DM20: ignition cycles=5, OBD conditions met=3; 3 bytes behind the last value",
     {"values": [{"name": "ignition cycles", "value": 5}, {"name": "OBD conditions met", "value": 3}], "records": [], "bytes_behind": 3}),
    (54016, "785634124D59434C2D3031" + "00" * 9 + "01000000" + "1B5B324A" + "41" * 12,
     "DM19: verification number=12345678, calibration=MYCL-01; verification number=00000001, calibration=\\x1B[2JAAAAAAAAAAAA",
     {"records": [[{"name": "verification number", "text": "12345678"}, {"name": "calibration", "text": "MYCL-01"}],
                  [{"name": "verification number", "text": "00000001"}, {"name": "calibration", "text": "\\x1B[2JAAAAAAAAAAAA"}]]}),
    (64950, "BE001C025A04060C", "DM24: SPN=190, freeze frame=yes, data stream=yes, test results=no, length=2 bytes; "
     "SPN=1114, freeze frame=yes, data stream=no, test results=no, length=12 bytes", None),
    (64950, "BE001802FFFFFFFF", "DM24: SPN=190, freeze frame=yes, data stream=yes, test results=yes, length=2 bytes",
     {"records": [[{"name": "SPN", "value": 190}, {"name": "freeze frame", "text": "yes"}, {"name": "data stream", "text": "yes"}, {"name": "test results", "text": "yes"},
                   {"name": "length", "value": 2, "unit": "bytes"}]]}),
    # A freeze frame: 13 bytes follow; SPN 1208, FMI 3, count 1; boost 100 kPa, 817.25 rpm, 55 %, 90 degrees, 80.5 km/h; a byte of the maker's.
    (65229, "0DB804030101" + "32" + "8A19" + "37" + "82" + "8050" + "AB", "DM4: SPN=1208, FMI=3 (voltage above normal or shorted high), count=1, torque mode=1, "
     "boost pressure=100 kPa, engine speed=817.25 rpm, engine load=55 %, coolant temperature=90 °C, vehicle speed=80.5 km/h, data=AB",
     {"records": [[{"name": "SPN", "value": 1208}, {"name": "FMI", "value": 3, "text": "voltage above normal or shorted high"}, {"name": "count", "value": 1},
                   {"name": "torque mode", "value": 1}, {"name": "boost pressure", "value": 100, "unit": "kPa"}, {"name": "engine speed", "value": 817.25, "unit": "rpm"},
                   {"name": "engine load", "value": 55, "unit": "%"}, {"name": "coolant temperature", "value": 90, "unit": "°C"},
                   {"name": "vehicle speed", "value": 80.5, "unit": "km/h"}, {"name": "data", "data": "AB"}]]}),
    (65229, "0000000000FFFFFF", "DM4: -; 8 bytes behind the last value", {"records": [], "bytes_behind": 8}),
    (64951, "06B80403010102046E0000FF", "DM25: SPN=1208, FMI=3 (voltage above normal or shorted high), count=1, data=0102; "
     "SPN=110, FMI=0 (above normal, most severe), count=127", None),
    (65260, b"1FUJGLDR5CLBP8834*".hex(), "VI vehicle identification: 1FUJGLDR5CLBP8834", {"group": "VI vehicle identification", "identification": ["1FUJGLDR5CLBP8834"]}),
    (65259, b"DETDL*6R1011*0692***".hex(), "CI component identification: DETDL*6R1011*0692**",
     {"group": "CI component identification", "identification": ["DETDL", "6R1011", "0692", "", ""]}),
    (65242, b"\x02A1*\xe9\x1b*\xff".hex(), "SOFT software identification: A1*\\xE9\\x1B", {"group": "SOFT software identification", "identification": ["A1", "\\xE9\\x1B"]}),
    (64965, b"\xff\xff".hex(), "ECUID ECU identification: -", {"group": "ECUID ECU identification", "identification": [""]}),
    (65260, (b"V" * 201).hex(), "VI vehicle identification: " + "V" * 200 + "...", {"group": "VI vehicle identification", "identification": ["V" * 200 + "..."]}),
]


def diagnostic_payloads():
    """Each payload, in a frame or in packets that are joined."""
    found = []
    for pgn, payload, wanted, has in PAYLOADS:
        log = "".join(line + "\n" for line in frames(pgn, 0, bytes.fromhex(payload))).encode()
        said = run(["decode", "--join"], log)[1].splitlines()[-1]
        found += same(said.partition(f" {pgn} ")[2], wanted, f"{pgn} {payload}")
        told = json.loads(run(["decode", "--join", "--format", "json"], log)[1].splitlines()[-1])
        front = ("line", "joined", "priority", "source", "destination", "pgn", "data", "says")
        if has is not None:
            found += same({key: value for key, value in told.items() if key not in front}, has, f"{pgn} {payload} in JSON")
    return found


# What another message says of these groups.
OTHERS = {"18EAFF00#CDFE00": "request: of 65229 (DM4)", "18EAFF00#D4FE00": "request: of 65236 (DM12)", "18E8FF00#01FFFFFFF900C100": "ack: negative, to 249(F9), of 49408 (DM21)"}


def diagnostic_names():
    """The names of the groups, where another message speaks of them."""
    said = run(["decode"], "".join(line + "\n" for line in OTHERS).encode())[1].splitlines()
    return [text for line, wanted in zip(said, OTHERS.values()) for text in same(line.partition(" 59904 ")[2] or line.partition(" 59392 ")[2], wanted, line)]
