"""Writes random scripts aimed at corners. Beside each line stands the model's answer, and the model tells where to aim next.

`plans` has which kinds of script there are; `writer` the writer, which has its aims by theme: `commands` (one by one), `misspelt`, `claims`,
`gaps`, `sessions`, `strangers` (frames from outside), `two_stations`; `limits` has scripts at a limit.
"""

from corners.plans import script

__all__ = ["script"]
