"""Tests of a unit that is a function: `python3 -m pytest examples/pytest/test_pump_unit.py`, with the wheel of hidzgula alone."""

import pytest
from pump_unit import PumpUnit

from hidzgula import DM1
from hidzgula.bench import assert_dm1

PUMP, OTHER = 0x1000000001419907, 0x0000000001419907


@pytest.fixture
def pump(bus):
    pump = PumpUnit(PUMP, 11)
    bus.device(pump.heard, each=0.05)
    return pump


def test_an_hour(bus, pump, station):
    bus.run(seconds=1800)
    assert_dm1(station, PUMP, [], lamps="no lamp")
    pump.active = (110, 0)
    bus.run(seconds=1800)
    assert_dm1(station, PUMP, [(110, 0)], lamps="amber")
    assert station.count(PUMP, DM1) == 3600


def test_another_takes_its_address(bus, pump, unit, station):
    pump.active = (110, 0)
    bus.run(seconds=2.5)
    other = unit(name=OTHER, address=11)
    other.set(190, 2)
    bus.run(seconds=10)
    assert_dm1(bus, other, [(190, 2)])
    assert {code.spn for told in station.messages(PUMP, DM1) for code in told.codes} == {110}
