"""Tests of the small unit: `python3 -m pytest examples/pytest --junitxml=report.xml`, with the wheel of hidzgula and python-can."""

import pytest
from brake_unit import BrakeUnit

from hidzgula import DM1, PGN_DM2
from hidzgula.bench import assert_dm1, assert_dm2

BRAKE, OTHER = 0x1000000001419907, 0x0000000001419907


@pytest.fixture
def brake(bus):
    brake = BrakeUnit(bus.channel("brake"), BRAKE, 11, clock=bus.time)
    bus.start(brake.run)
    return brake


def test_it_claims_its_address(bus, brake, station):
    bus.run(seconds=0.25)
    assert [str(unit) for unit in station.units()] == ["1000000001419907 at 11"]


def test_a_fault_is_seen_within_a_second(bus, brake, station):
    bus.run(seconds=5)
    assert_dm1(station, BRAKE, [], lamps="no lamp")
    brake.active = (110, 0)
    bus.run(seconds=1)
    assert_dm1(station, BRAKE, [(110, 0)], lamps="amber")


def test_its_previous_fault_is_told_on_request(bus, brake, station):
    brake.previous = (190, 2)
    bus.run(seconds=1)
    station.ask(BRAKE, PGN_DM2)
    bus.run(seconds=0.2)
    assert_dm2(station, BRAKE, [(190, 2)])


@pytest.mark.parametrize("second", [0.1, 1.25, 2.5, 3.0])
def test_another_takes_its_address(bus, brake, unit, station, second):
    brake.active = (110, 0)
    bus.run(seconds=second)
    other = unit(name=OTHER, address=11)
    other.set(190, 2)
    bus.run(seconds=10)
    assert_dm1(bus, other, [(190, 2)])
    for lists in (station, bus.listener):
        assert {code.spn for told in lists.messages(BRAKE, DM1) for code in told.codes} <= {110}
        assert {code.spn for told in lists.messages(OTHER, DM1) for code in told.codes} == {190}
