"""The trouble codes of a fleet: many logs, each read by the proved program, as tables of messages and units.

    python3 -m hidzgula.fleet LOGS.. --out DIR
    python3 -m hidzgula.fleet report DIR >page.html

On Dask (the extra `hidzgula[fleet]`, or Debian's `python3-distributed`) one log is one task, or of many logs several are; docs/PYTHON.md of the
project tells the rest.
"""
