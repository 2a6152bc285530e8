"""What a run of random logs must reach, and how often the model reached it: each form of a line, each reason why one is bad, each rule of what
is heard, each event, each form of what a frame says. A word that is not here is an error."""

LINES = """
bad: longer than 4096 bytes
bad: no text
bad: no time (SECONDS.MICROSECONDS)
bad: no bus behind the time
bad: no frame behind the bus
bad: no # behind the identifier
bad: 8 digits of identifier wanted, .. found
bad: identifier above 1FFFFFFF
bad: more than 8 bytes
bad: .. bytes, and .. told of
bad: odd number of digits
bad: no hexadecimal digit: ..
bad: words behind the data
a note that is no text
an empty line
a comment
other text
what would be cansend's
frames were dropped
frames were dropped, of whatever bus
an overflow
not J1939: 11-bit identifier
not J1939: remote frame
not J1939: CAN FD frame
not J1939: error frame
a frame in a log's form
a frame in plain candump's with a time form
a frame in plain candump's without a time form
a frame in cansend's form
a frame in a script's form
a direction before the identifier
"""

WORDS = """
says: claim
says: cannot claim
says: request
says: acknowledgment
says: DM1
says: DM2
says: DM6
says: cannot be read, bad length
says: read in part
says: groups of padding
says: groups of zeros
says: an older code
says: bytes too many or too few
says: RTS
says: CTS
says: the end
says: BAM
says: abort
says: packet
says: empty packet
says: data of a group with a name
says: data of a group without a name
a code has a text of its own
a code has the texts of its SPN and of its FMI
a code has the text of its SPN
a code has the text of its FMI
a code has no text
lamps that are not available
a lamp that is not available
a lamp that is reserved
decode: a broadcast is joined
decode: a session is joined
decode: packets of nothing
decode: packets out of order
decode: packets of a message that was ended
decode: a joined message has a group's name
decode: a bus too many
"""

HEARD = """
a gap
a gap after which nobody is known to hold an address
a claim of the address that the NAME has
a claim of an address without owner
a claim by the last owner again, which went elsewhere since
a claim that takes an address from who has it
a claim that takes an address from who had it
a cannot-claim of a NAME with an address
a cannot-claim of a NAME without an address
a cannot-claim of a NAME that was not known
an acknowledgment that is told
an acknowledgment that was told
an acknowledgment from an address without owner
a single frame is listed
a single frame cannot be read
a broadcast begins
a broadcast of another group is announced
a broadcast begins from an address without owner
a broadcast goes on
a broadcast is listed
a broadcast is broken by a packet that is not the next
a broadcast packet of nothing that is joined
a session begins
a session of another group is announced
a session is asked for from an address without owner
a session goes on
a session is listed
a session is broken by a packet that is not the next
a session packet of nothing that is joined
a session ended by a request to send of another group
a session ended by an abort of the sender
a session ended by an abort of the receiver
a session ended by a claim of the source under another NAME
a broadcast ended by a claim of the source under another NAME
an entry begins a list
an entry is equal to the one before it
an entry is another one than the one before it
an entry is equal to the one before it, but contested
an entry is equal to the one before it, which was contested
a contested entry
an entry of an address that was taken over 250 ms ago or more
an entry of an address that was taken over by a line without a time
told of an address without owner
not told again of an address without owner
a late packet
a late clear to send
a frame behind a late one
a session is held
a packet comes again as it was asked for
a packet comes again as it was asked for, with other bytes
a packet without a time
"""

LISTENER = """
a single frame is read in part
a broadcast is read in part
a session is read in part
an older code is read by its unit's method
a unit's method reads no code
a message from an address that nobody claimed
a message from an address that nobody claimed since a gap
a session to an address that is claimed
a session to an address that nobody claimed
a claim of the receiver's address in mid-session under the same NAME
a claim of the receiver's address in mid-session under a NAME that had not that address
an entry to another address than the one that is shown
an acknowledgment to another address than the one that is shown
an entry is equal to the one before it, but went elsewhere
a row of an address that nobody claimed
a row of an address that nobody claimed since a gap
an address that nobody claimed is told of, and has no row
a change at a time of which it is not told
a change of another unit than the one of which it is told
missed frames of each bus
one more of several buses
VI in one frame
CI in one frame
SOFT in one frame
ECUID in one frame
VI by broadcast
VI by session
CI by broadcast
CI by session
SOFT by broadcast
SOFT by session
ECUID by broadcast
ECUID by session
VI is not told whose address changed hands on the way
CI is not told whose address changed hands on the way
SOFT is not told whose address changed hands on the way
ECUID is not told whose address changed hands on the way
an identification is broken by a packet that is not the next
a packet of an identification comes again as it was asked for
a VIN without a star
an identification without characters
an identification of empty fields
an identification that is not shown
a unit's first identification
an identification that was told before
another identification than before
a row of an address that nobody claimed and that told an identification alone
begun anew with an identification
"""
WATCH = """
the first bus that a line names is watched
a line of another bus
a line of no bus
frames were dropped on another bus
a bad line is a missed frame
a bad line is passed over
a bad line ends a strict run
an owner is assumed
a row of a NAME that was assumed
a row without an address
a row without a DM1
a row without entries
a unit had a lamp on at some time
a unit had a code at some time, and no lamp on
a DM1 that fell silent
a time that jumped back
a time that is as before
an event before any time
more is heard than is kept at once
begun anew with the owner of an address that holds none
begun anew with the owner of an address that it has left
begun anew behind a gap
a count that is not available
"""

NOTICES = """
a bad line that is counted alone
relative times count
times since the line before
relative times, too few
no line has a time
an input without frames that looks like no log
an input without frames that looks like a table (.csv)
an input without frames that looks like PEAK's text (.trc)
an input without frames that looks like Vector's text (.asc)
an input without frames that looks like Vector's binary form (.blf)
an input without frames that looks like compressed (gzip)
an input without frames that looks like compressed (xz)
an input without frames that looks like compressed (zstd)
an input without frames that looks like compressed (zip)
an input without frames that looks like compressed (bzip2)
an input without frames that looks like UTF-16
an input without frames that looks like binary
no line was read
frames of other times alone
frames of other buses alone
frames of no group alone
dropped frames alone
"""

# of logs that are read with a DBC file
SIGNALS = """
a signal does not fit
a signal is not available
a signal is an error
a big signal
a big signed signal
a little signal
a little signed signal
a group of several messages
a signal of a page that is there
a signal of another page
a value has the file's text
"""

DIAGNOSTICS = """
says: DM12
says: DM23
says: DM28
says: DM4
says: DM5
says: DM19
says: DM20
says: DM21
says: DM24
says: DM25
says: DM26
says: VI
says: CI
says: SOFT
says: ECUID
diagnostic: a value that is not there
diagnostic: not available
diagnostic: error
diagnostic: a monitor
diagnostic: bytes behind the last record
diagnostic: a record of DM4
diagnostic: a record of DM19
diagnostic: a record of DM20
diagnostic: a record of DM24
diagnostic: a record of DM25
"""

# What no log reaches: something of so long a message can be read.
NEVER = """
a broadcast cannot be read
a session cannot be read
"""

COUNTS = {case: 0 for part in (LINES, WORDS, HEARD, NEVER, LISTENER, WATCH, NOTICES, SIGNALS, DIAGNOSTICS) for case in part.strip().splitlines()}


def wanted():
    """What a run has to reach; signals and diagnostics have runs of their own."""
    return [case for case in COUNTS if case not in (NEVER + SIGNALS + DIAGNOSTICS).strip().splitlines()]


def reach(case):
    COUNTS[case] += 1
