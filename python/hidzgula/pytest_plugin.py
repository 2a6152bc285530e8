"""A bench as fixtures of pytest. The wheel registers them; else a conftest.py says `pytest_plugins = "hidzgula.pytest_plugin"`.

    from hidzgula.bench import assert_dm1

    def test_a_fault_is_seen(bus, unit, station):
        engine = unit(name=0x1000000001419907, address=0)
        engine.set(110, 0)
        bus.run(seconds=2)
        assert_dm1(station, engine, [(110, 0)])
"""

from typing import TYPE_CHECKING, Callable, Iterator

import pytest

if TYPE_CHECKING:
    from .bench import Bench, BenchStation, BenchUnit


@pytest.fixture
def bus() -> "Iterator[Bench]":
    """A fresh bench at 0 s; it is closed when the test ends."""
    from .bench import Bench

    with Bench() as bench:
        yield bench


@pytest.fixture
def unit(bus: "Bench") -> "Callable[..., BenchUnit]":
    """Adds a simulated unit to the bus: `unit(name=0x1000000001419907, address=128)`, with the settings of `Bench.unit`."""
    return bus.unit


@pytest.fixture
def station(bus: "Bench") -> "BenchStation":
    """What a tester sees: a station of the NAME 1 at address 249, which is on the bus from its first moment on."""
    return bus.station()
