"""The recipes of docs/WATCH.md that hand on what `watch` tells: to MQTT, to Prometheus, and into SQLite."""

import re
import shutil
import socket
import sqlite3
import subprocess
import tempfile
import time

from harness import program, skipped
from logs.common import same
from logs.examples import MIXED, recipes_of

TOPIC = "truck/faults"


def recipe(word):
    """The line of the recipe that has this word; before it the one that all of jq share."""
    lines = recipes_of("docs/WATCH.md")
    return f"{lines[0]}\n{next(line for line in lines if word in line)}".replace("./j1939bench", program("watch"))


def run(line, room):
    """Runs a recipe over a log of units that claim and some that do not."""
    with open(f"{room}/mixed.log", "wb") as log:
        log.write(MIXED)
    line = line.replace("candump -L -d can0", "cat mixed.log").replace(" LOG", " mixed.log")
    return subprocess.run(["sh", "-c", line], cwd=room, capture_output=True, text=True, timeout=60, check=False)


def lacks(packages, *names):
    """Tells which of these commands of Debian's packages is not here, and whether one is not."""
    missing = [name for name in names if shutil.which(name) is None]
    if missing:
        skipped(f"a recipe of docs/WATCH.md, since there is no {' and no '.join(missing)} here (Debian: {packages})")
    return missing


def to_mqtt():
    """Each line of JSON comes as a message of its own, in order."""
    if lacks("mosquitto mosquitto-clients", "mosquitto", "mosquitto_pub", "mosquitto_sub"):
        return []
    wanted = subprocess.run([program("watch"), "watch", "--format", "json"], input=MIXED, capture_output=True, check=False).stdout.decode().splitlines()
    with socket.create_server(("127.0.0.1", 0)) as free:
        port = free.getsockname()[1]
    with tempfile.TemporaryDirectory() as room:
        with open(f"{room}/broker.conf", "w") as settings:
            settings.write(f"listener {port} 127.0.0.1\nallow_anonymous true\n")
        broker = subprocess.Popen(["mosquitto", "-c", f"{room}/broker.conf"], stdout=subprocess.DEVNULL, stderr=subprocess.DEVNULL)
        try:
            at, until = ["-h", "127.0.0.1", "-p", str(port)], time.monotonic() + 20
            # (kept for who comes later, so that one knows when it is heard)
            while subprocess.run(["mosquitto_pub", *at, "-t", "ready", "-m", "ready", "-r"], stderr=subprocess.DEVNULL).returncode and time.monotonic() < until:
                time.sleep(0.2)
            hears = subprocess.Popen(["mosquitto_sub", *at, "-t", TOPIC, "-t", "ready", "-C", str(len(wanted) + 1), "-W", "30"], stdout=subprocess.PIPE, text=True)
            first = hears.stdout.readline()
            ran = run(recipe("mosquitto_pub").replace("mosquitto_pub", f"mosquitto_pub {' '.join(at)}"), room)
            heard = hears.communicate(timeout=60)[0].splitlines()
        finally:
            broker.kill()
            broker.wait()
    return same([first, ran.returncode, heard], ["ready\n", 0, wanted], "the recipe for MQTT")


def to_prometheus():
    """The file has the text form of Prometheus: a metric of each unit, with how many codes are active."""
    if lacks("jq", "jq"):
        return []
    with tempfile.TemporaryDirectory() as room:
        ran = run(recipe(".prom").replace("FOLDER", room), room)
        told = open(f"{room}/j1939.prom").read()
    wanted = ['1000000001419907"} 1', 'address 5, no claim seen"} 1', '1000000001419908"} 0', 'address 6, no claim seen"} 1', '1000000001419905"} 0',
              'address 5, no claim seen since gap 1"} 1', 'address 6, no claim seen since gap 1"} 0']  # fmt: skip
    lines = sorted(f'j1939_active_codes{{unit="{it}' for it in wanted)
    faults = same([ran.returncode, ran.stderr, sorted(told.splitlines())], [0, "", lines], "the recipe for Prometheus")
    wrong = [line for line in told.splitlines() if not re.fullmatch(r'[a-z0-9_]+\{[a-z]+="[^"\\\n]*"\} [0-9]+', line)]
    return [*faults, *([f"no text of Prometheus: {wrong}"] if wrong else [])]


def to_sqlite():
    """The table has the rows of CSV."""
    if lacks("sqlite3", "sqlite3"):
        return []
    with tempfile.TemporaryDirectory() as room:
        ran = run(recipe("sqlite3"), room)
        with sqlite3.connect(f"{room}/faults.db") as database:
            rows = database.execute("SELECT name, spn, fmi, lamps FROM messages WHERE kind = 'dm1' ORDER BY rowid").fetchall()
    wanted = [("1000000001419907", "100", "3", "04FF"), ("address 5, no claim seen", "101", "3", "04FF"), ("address 6, no claim seen", "102", "3", "04FF"),
              ("address 5, no claim seen since gap 1", "103", "3", "04FF"), ("address 6, no claim seen since gap 1", "", "", "00FF")]  # fmt: skip
    return same([ran.returncode, ran.stderr, sorted(rows)], [0, "", sorted(wanted)], "the recipe for SQLite")
