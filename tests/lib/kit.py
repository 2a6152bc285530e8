"""build_program as a module, and what rests as it does on private files of the kit, or on the wording of its messages: on the kits that it names."""
import importlib.machinery
import importlib.util
import os
import shutil
import subprocess
import sys

from harness import TOP


def loaded(name, path):
    """A file of Python as the module of that name."""
    loader = importlib.machinery.SourceFileLoader(name, str(path))
    made = importlib.util.module_from_spec(importlib.util.spec_from_loader(name, loader))
    sys.modules[name] = made
    loader.exec_module(made)
    return made


BUILDER = loaded("build_program", TOP / "build_program")


def identity_of_kit():
    """How the kit at hand names itself."""
    told = subprocess.run(["rt", "version"], stdin=subprocess.DEVNULL, stdout=subprocess.PIPE, stderr=subprocess.STDOUT, errors="replace")
    return told.stdout.strip() if told.returncode == 0 else f"none: {told.stdout.strip()}"


def stop_unless_tried(program):
    """Stops where the kit at hand is another one. What a program reads of it may then mean something else: try it, and have build_program name it."""
    try:
        identity = identity_of_kit()
    except OSError as why:
        sys.exit(f"{program}: there is no rt: {why}")
    if identity not in BUILDER.TRIED_WITH:
        sys.exit(f"{program}: this was tried with the kits {', '.join(BUILDER.TRIED_WITH)}, and here is '{identity[:200]}': try it with that, and have build_program name it")


def toolchain(program):
    """What the command `rt` is made of: only it knows how a crate is checked, and by which sum of files it finds a library to be right."""
    stop_unless_tried(program)
    return loaded("rtlib", f"{os.path.dirname(os.path.realpath(shutil.which('rt')))}/rtlib.py")
