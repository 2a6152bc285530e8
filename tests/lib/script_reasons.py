"""Lines of a script of which some are not accepted, and what `check` says of those."""

NOT_ACCEPTED = """\
garage 0000000000000001 249 64 16 100000
# a comment
join 00000000000000A0 0 plain
join 00000000000000A1 0x11 plain
lamps 1 4FF
set 1 1208 3
think 2
fly 1

join 00000000000000A1 7 flicker 100
shown 00000000000000A0 dm3
carry 5 times
inject 18FECA00 04 FG
inject 18FECA0 04
pend 1 300
unpend 1 300 1 x
garage2 1 2 300 4 5 6 300 300 9
garage2 1 2 3 4 5 6 4294967296 3 9
garage2 1 2 3 4 5 6 300 8
garage2 1 2 3 4 5 256
garage2 1 2 3 4
at 1 row
at 1 at 1 stats
at 1 fly
at 1 carry
at
at x stats
at 1
at 1 stats
at 0 stats
garage 0000000000000001 249 64 16 100
join 00000000000000A1 7 flicker 100 256
join 00000000000000A1 7 flicker 100 31 9
ask all dm4
ask all dm11 now
ask all
ask all dm11
at 1 ask all claim
read x
read
hear 1 -1
round
frame x
lamps 1
command 1
command 1 2 3
shown 1
row
counts
stats 1
    
join 00000000000000A2 2 plain
join 00000000000000A3 3 guarded
join 00000000000000A4 4 flicker 100 31
turn 5
hear 6 3
leave 4
leave 4
think 4
at 1 read
at 1 read 5
at 2 shown 00000000000000A0 dm6
at 1 command 00000000000000A0 9
at 1 report
"""
REASONS = """\
4: ADDRESS: '0x11' is no decimal number from 0 to 255
5: HHHH: '4FF' is not four hexadecimal digits
7: no seat 2; seats given so far: 1
8: no command begins with 'fly'
10: FMI: missing
11: KIND: 'dm3' is not dm1, dm2 or dm6
12: 'times' stands behind the command
13: BB: 'FG' is not two hexadecimal digits
14: IIIIIIII: '18FECA0' is not eight hexadecimal digits
15: FMI: missing
16: N: 'x' is no decimal number from 0 to 4294967295
17: second GRANT: '300' is no decimal number from 0 to 255
18: second WINDOW: '4294967296' is no decimal number from 0 to 4294967295
19: LIMIT: missing
20: second ADDRESS: '256' is no decimal number from 0 to 255
21: second NAME: missing
22: NAME: missing
23: 'at' takes no station: read, ask, command, shown, row, stats and report do
24: no command begins with 'fly'
25: 'carry' takes no station: read, ask, command, shown, row, stats and report do
26: S: missing
27: S: 'x' is no decimal number from 0 to 4294967295
28: COMMAND: missing
29: no station 1
31: there is a garage already
32: FMI: '256' is no decimal number from 0 to 255
33: '9' stands behind the command
34: WHAT: 'dm4' is not dm1, dm2, dm3, dm6, dm11, claim or a decimal number
35: 'now' stands behind the command
36: WHAT: missing
38: no station 1
39: N: 'x' is no decimal number from 0 to 4294967295
41: N: '-1' is no decimal number from 0 to 4294967295
42: N: missing
43: I: 'x' is no decimal number from 0 to 4294967295
44: HHHH: missing
45: ADDRESS: missing
46: '3' stands behind the command
47: KIND: missing
48: NAME: missing
49: SEAT: missing
50: '1' stands behind the command
51: no word
55: no seat 5; seats given so far: 4
56: no seat 6; seats given so far: 4
58: no seat 4; seats given so far: 4
59: no seat 4; seats given so far: 4
60: no station 1
61: no station 1
62: no station 2
63: no station 1
64: no station 1
"""

# Before there is a garage.
TOO_EARLY = "stats\nat 1 stats\nfly\ngarage2 1\n"
REASONS_TOO_EARLY = """\
1: no garage yet: it comes first
2: no garage yet: it comes first
3: no command begins with 'fly'
4: ADDRESS: missing
"""
