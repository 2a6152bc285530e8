"""What is loaded before the built program, to refuse it memory and to have its reads and writes fail."""

import pathlib
import shutil
import subprocess
import sys

from harness import Tally

HERE = pathlib.Path(__file__).resolve().parent

# A vehicle of two units, for runs in threads.
VEHICLE = b"""[station]
name = "0000000000000001"
address = 249
window = 64
grant = 16
limit = 100000
[[unit]]
name = "00000000000000A0"
address = 0
kind = "plain"
[[unit]]
name = "00000000000000B0"
address = 1
kind = "flicker"
spn = 100
fmi = 1
"""


def built(name, folder):
    """The library made of NAME.c, in that folder. Without a C compiler the tests end here, as failed."""
    compiler = shutil.which("cc")
    if compiler is None:
        print("there is no C compiler `cc`, which these tests need: FAILED")
        sys.exit(Tally(failed=1).end())
    library = pathlib.Path(folder) / (name + ".so")
    subprocess.run([compiler, "-shared", "-fPIC", "-O2", "-Wall", "-Werror", "-o", library, HERE / (name + ".c")], check=True)
    return library
