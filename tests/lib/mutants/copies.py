"""A copy of the checkout, and programs with many wrong bodies in it: built once, without proof, with a switch for each."""
import importlib.machinery
import os
import re
import shutil
import subprocess
import time

from harness import TOP

# What stands in a program before a mark for each wrong body. As it was built it has none, and keeps itself.
HEAD = b"wrong bodies:"
BUILT, RUNNING, NOTING = b"b", b"r", b"n"
MOST = 2048
# The C function that the switched sources ask. It looks at two numbers, and asks nothing of the environment.
SWITCH_IN_C = r"""
#include <fcntl.h>
#include <stdio.h>
#include <sys/mman.h>
#include <unistd.h>

/* behind the head b as it was built, r to run, n to note which are come by; then 1 for each that is to run */
static volatile char chosen[16 + @MOST@] = "wrong bodies:b";
static int begun;
static char *noted;

/* the toolchain removes what it built: the program keeps itself */
__attribute__((constructor)) static void keep(void)
{
    static char room[1 << 16], path[4096];
    unsigned long first, end;
    if (chosen[13] != 'b')
        return;
    /* (a loader may have started it: it is the file that this text is of) */
    FILE *maps = fopen("/proc/self/maps", "r");
    while (maps && fgets(room, sizeof room, maps))
        if (sscanf(room, "%lx-%lx %*s %*s %*s %*s %4000s", &first, &end, path) == 3 && first <= (unsigned long)chosen && (unsigned long)chosen < end)
            break;
    int from = open(path, O_RDONLY), to = open("@MADE@.new", O_WRONLY | O_CREAT | O_TRUNC, 0755);
    for (long size; (size = read(from, room, sizeof room)) > 0;)
        if (write(to, room, size) != size)
            return;
    close(to);
    rename("@MADE@.new", "@MADE@");
}

static void begin(void)
{
    begun = 1;
    if (chosen[13] == 'n') {
        int file = open("@NOTED@", O_RDWR);
        void *all = mmap(0, @MOST@, PROT_READ | PROT_WRITE, MAP_SHARED, file, 0);
        noted = all == MAP_FAILED ? 0 : all;
        close(file);
    }
}

_Bool is_wrong_body(unsigned number)
{
    if (!begun)
        begin();
    if (noted && number < @MOST@)
        noted[number] = 1;
    return number < @MOST@ && chosen[16 + number] == '1';
}
"""


def copy_to(folder):
    """Copies what is under version control, or may be, with what changed of it; and the library for C, where it is built, as one that is of these files."""
    folder.mkdir(parents=True, exist_ok=True)
    told = subprocess.run(["git", "ls-files", "-z", "-co", "--exclude-standard"], cwd=TOP, check=True, stdout=subprocess.PIPE)
    for name in told.stdout.decode().split("\0"):
        if name and os.path.lexists(TOP / name):
            there = folder / name
            there.parent.mkdir(parents=True, exist_ok=True)
            shutil.copy2(TOP / name, there, follow_symlinks=False)
    if (TOP / "c/out/proved").exists():
        shutil.copytree(TOP / "c/out", folder / "c/out", dirs_exist_ok=True)
        os.utime(folder / "c/out/proved")


def rows_of_crates():
    """The crates by crates.txt, in its order: what each stands on."""
    found = {}
    for line in (TOP / "crates.txt").read_text(encoding="utf-8").splitlines():
        head, colon, uses = line.split("#")[0].partition(":")
        if colon:
            found[head.split()[0]] = uses.split()
    return found


def programs():
    """The programs, each with the first of its subcommands."""
    rows = [line.partition(":") for line in (TOP / "programs.txt").read_text(encoding="utf-8").splitlines() if not line.startswith("#")]
    return {name: does.split()[0] for name, _, does in rows}


def below(program):
    """The crates that a program stands on, and itself."""
    uses, found, left = rows_of_crates(), set(), [program]
    while left:
        name = left.pop()
        if name in uses and name not in found:
            found.add(name)
            left += uses[name]
    return found


# The layers of crates.txt that are the tool's and not the core's; of the core a unit and a station on a real bus, whose times tests alone see.
TOOL_LAYERS = ("log", "words", "commands", "program")
ON_A_REAL_BUS = ("live_unit", "live_station")


def layers():
    """The crates by the layers of crates.txt, in its order."""
    found, names = {}, []
    for line in (TOP / "crates.txt").read_text(encoding="utf-8").splitlines():
        head = re.fullmatch(r"# (\w+)", line)
        if head:
            names = found.setdefault(head[1], [])
        elif ":" in line and not line.startswith("#"):
            names.append(line.partition(":")[0].split()[0])
    return found


def tool_side():
    """The crates that are tried where none is named: those of the tool's layers, and of a real bus, that a program stands on."""
    standing = set().union(*(below(it) for it in programs()))
    names = [*ON_A_REAL_BUS, *(name for layer in TOOL_LAYERS for name in layers()[layer])]
    return [it for it in names if it in standing]


class NotBuilt(Exception):
    """Why a program was not built: the lines of sources that it stopped at."""

    def __init__(self, said):
        super().__init__(said[-2000:])
        self.said = said
        self.places = [(path, int(line)) for path, line in re.findall(r"(crates/[\w/]+\.rt|src/[\w/]+\.rt):(\d+)", said)]


def built(folder, program, subcommand):
    """Builds this program of a copy without proof, with its switch, and answers its path."""
    home, made = folder / "crates" / program, folder / "made" / program
    made.parent.mkdir(exist_ok=True)
    made.unlink(missing_ok=True)
    (home / "c").mkdir(exist_ok=True)
    text = SWITCH_IN_C
    for word, value in (("MADE", made), ("NOTED", folder / "noted"), ("MOST", MOST)):
        text = text.replace(f"@{word}@", str(value))
    (home / "c/wrong_body.c").write_text(text, encoding="utf-8")
    ran = subprocess.run(["rt", "try", "--", subcommand], cwd=home, stdin=subprocess.DEVNULL, stdout=subprocess.PIPE, stderr=subprocess.STDOUT,
                         errors="replace", env=os.environ | {"RT_ALLOW_C": "1"})
    if not made.exists():
        raise NotBuilt(ran.stdout)
    return made


def program_with(made, numbers=(), mode=RUNNING):
    """A built program with these wrong bodies running; or, noting, which it comes by."""
    content = bytearray(made.read_bytes())
    at = content.index(HEAD + BUILT) + len(HEAD)
    content[at : at + 1] = mode
    for number in numbers:
        content[at + 3 + number] = ord("1")
    return content


def place_for(folder, program):
    """Where the tests of a copy look for a program, with nothing there."""
    there = folder / "crates" / program / "out" / program
    there.parent.mkdir(exist_ok=True)
    there.unlink(missing_ok=True)
    return there


def put(folder, program, numbers=(), mode=RUNNING):
    """Puts a built program of a copy where its tests look for it."""
    there = place_for(folder, program)
    there.write_bytes(program_with(folder / "made" / program, numbers, mode))
    there.chmod(0o755)


def put_unchanged(folder, lot):
    """Puts programs without a wrong body into a copy: those that are proved, that ./try keeps, or those of this lot. They count as built of its files."""
    builder = importlib.machinery.SourceFileLoader("build_program", str(folder / "build_program")).load_module()
    for program in programs():
        there, made = place_for(folder, program), lot / "made" / program
        kept = [it for it in (TOP / "crates" / program / "out" / program, TOP / "out/try" / program / "program") if it.exists()]
        if kept:
            shutil.copy2(kept[0], there)
        elif made.exists():
            there.write_bytes(program_with(made))
            there.chmod(0o755)
        else:
            continue
        builder.note_sum(program, builder.sum_of(program), time.time())
