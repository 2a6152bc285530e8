"""Makes the wheel of hidzgula, with the library inside (PEP 517): what pip calls, by pyproject.toml. It needs Python alone, and no network.

The library is c/out/libhidzgula_station.so, which `c/build shared` makes, or with the setting `target=aarch64` that of 64-bit ARM;
`python/build` calls both. Two wheels of the same files are the same, byte for byte.
"""

import base64
import hashlib
import pathlib
import re
import sys
import zipfile

HERE = pathlib.Path(__file__).resolve().parent
# The library by its processor. It needs Linux, and of the C library malloc, realloc, free, memcpy, memmove and memset alone.
LIBRARIES = {"x86_64": HERE.parent / "c/out/libhidzgula_station.so", "aarch64": HERE.parent / "c/out/aarch64/libhidzgula_station.so"}


def version():
    """The version that the package tells."""
    return re.search(r'^__version__ = "([^"]+)"$', (HERE / "hidzgula/__init__.py").read_text(), re.M)[1]


def metadata():
    """What the wheel says of itself."""
    return f"""Metadata-Version: 2.1
Name: hidzgula
Version: {version()}
Summary: A proved diagnostic station for SAE J1939
Keywords: CAN,J1939,diagnostics,DM1
Requires-Python: >=3.9
Provides-Extra: can
Requires-Dist: python-can>=4.0; extra == "can"
Provides-Extra: fleet
Requires-Dist: distributed>=2022.12; extra == "fleet"
Provides-Extra: pytest
Requires-Dist: pytest>=6.0; extra == "pytest"
"""


# What pytest finds by itself where the wheel is installed.
ENTRY_POINTS = "[pytest11]\nhidzgula = hidzgula.pytest_plugin\n"


def tag(target):
    """Where the wheel can be installed."""
    return f"py3-none-manylinux_2_17_{target}"


def wheel_facts(target):
    """How the wheel is to be installed."""
    return f"Wheel-Version: 1.0\nGenerator: hidzgula wheel_backend\nRoot-Is-Purelib: false\nTag: {tag(target)}\n"


def files(target):
    """The name in the wheel and the bytes of each file, but for the list of them."""
    if target not in LIBRARIES:
        sys.exit(f"the target {target} is none of {', '.join(LIBRARIES)}")
    library = LIBRARIES[target]
    if not library.is_file():
        sys.exit(f"there is no {library}: c/build shared makes it")
    package = [path for ending in ("*.py", "pages/*.*", "py.typed") for path in sorted((HERE / "hidzgula").rglob(ending))]
    found = [(str(path.relative_to(HERE)), path.read_bytes()) for path in package]
    found.append((f"hidzgula/{library.name}", library.read_bytes()))
    info = f"hidzgula-{version()}.dist-info"
    said = (("METADATA", metadata()), ("WHEEL", wheel_facts(target)), ("entry_points.txt", ENTRY_POINTS))
    return info, [*found, *((f"{info}/{name}", text.encode()) for name, text in said)]


def line_of(name, content):
    """The line of a file in the list of files."""
    digest = base64.urlsafe_b64encode(hashlib.sha256(content).digest()).rstrip(b"=").decode()
    return f"{name},sha256={digest},{len(content)}\n"


def build_wheel(wheel_directory, config_settings=None, metadata_directory=None):
    """Writes the wheel into a folder, and tells its name."""
    target = (config_settings or {}).get("target", "x86_64")
    info, found = files(target)
    record = "".join(line_of(name, content) for name, content in found) + f"{info}/RECORD,,\n"
    called = f"hidzgula-{version()}-{tag(target)}.whl"
    with zipfile.ZipFile(pathlib.Path(wheel_directory) / called, "w", zipfile.ZIP_DEFLATED) as wheel:
        for name, content in [*found, (f"{info}/RECORD", record.encode())]:
            entry = zipfile.ZipInfo(name, (1980, 1, 1, 0, 0, 0))
            entry.external_attr = (0o755 if name.endswith(".so") else 0o644) << 16
            entry.compress_type = zipfile.ZIP_DEFLATED
            wheel.writestr(entry, content)
    return called


def build_sdist(sdist_directory, config_settings=None):
    """Refused: the library is proved and built by its own toolchain."""
    sys.exit("there is no source distribution: a wheel has the library, which c/build shared proves and builds")


if __name__ == "__main__":
    pathlib.Path(sys.argv[1]).mkdir(parents=True, exist_ok=True)
    print(pathlib.Path(sys.argv[1]) / build_wheel(sys.argv[1], {"target": sys.argv[2]}))
