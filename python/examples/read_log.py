"""Reads a log of candump: the newest DM1 of each unit at its end."""

import sys

import hidzgula

with hidzgula.Listener() as listener, open(sys.argv[1], "rb") as log:
    hidzgula.take_log(listener, log)
    for unit in listener.units():
        print(unit, listener.newest(unit.name, hidzgula.DM1), sep=" | ")
