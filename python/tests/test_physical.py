"""References in physical units and their binary form: each step by hand at its edges, and what can't be said."""

import json
import pytest
from decimal import Decimal
from typing import Any

from conftest import Program
from olr.model.fault import Fault
from olr.model.reference import absolute, read_reference
from olr.physical.fields import PhysicalPoint, PhysicalReference
from olr.physical.grid import absolute_number, relative_number
from olr.physical.numbers import ONE, units_of
from olr.physical.writing import base64_of

FIRST = PhysicalPoint("7.415739", "49.871246", 3, 2, "84", 3, "250")
LAST = PhysicalPoint("7.419139", "49.871326", 5, 3, "15")
LINE = PhysicalReference("line", [FIRST, LAST])
ALONG = PhysicalReference("point-along-line", [FIRST, LAST])
DEGREE = 1_000_000


def written(reference: PhysicalReference) -> Any:
    """What a reference says when it is written."""
    read = read_reference(base64_of(reference))
    assert read is not None
    return read


def changed(**fields: Any) -> PhysicalReference:
    """The line with other fields of its first point."""
    return LINE._replace(points=[FIRST._replace(**fields), LAST])


def fault_of(reference: PhysicalReference) -> str:
    """Why a reference can't be written: what the table of faults knows."""
    with pytest.raises(Fault) as raised:
        base64_of(reference)
    assert raised.value.meaning and raised.value.remedy
    return raised.value.text


def test_the_program_reads_what_is_written(program: Program) -> None:
    shown = program.run("show", base64_of(LINE._replace(positive="88.1")), "--format", "json")
    first, last = json.loads(shown.stdout)["points"]
    assert (first["class"], first["form"], first["sector"]) == (3, 2, 7)
    assert (first["lowest"], first["interval"]) == (3, 4)
    assert (last["class"], last["form"], last["sector"]) == (5, 3, 1)
    assert json.loads(shown.stdout)["positive"] == 90
    shown = program.run(
        "show", base64_of(ALONG._replace(side=2, orientation=3)), "--format", "json"
    )
    found = json.loads(shown.stdout)
    assert (found["kind"], found["side"], found["orientation"]) == ("point-along-line", 2, 3)


def test_sectors() -> None:
    """32 of 11.25 degrees, each with its lower end."""
    for sector in range(32):
        begin = sector * Decimal("11.25")
        for bearing in (begin, str(begin + Decimal("11.2499"))):
            assert written(changed(bearing=bearing)).points[0].sector == sector
    for degrees in range(361):
        found = written(changed(bearing=str(degrees))).points[0].sector
        assert found == int(degrees / Decimal("11.25")) % 32
    assert written(changed(bearing=360)).points[0].sector == 0
    for bearing in ("360.01", "-0.01", "NaN", "", None):
        assert fault_of(changed(bearing=bearing)) == "BadElement bearing"


def test_intervals() -> None:
    """256 of 58.6 metres, each with its lower end; a leg has less than 15 km."""
    for interval in range(256):
        begin = interval * Decimal("58.6")
        for distance in (begin, str(begin + Decimal("55"))):
            assert written(changed(distance=distance)).points[0].interval == interval
        if interval:
            before = begin - Decimal("0.000001")
            assert written(changed(distance=before)).points[0].interval == interval - 1
    assert written(changed(distance="14999.999999")).points[0].interval == 255
    assert fault_of(changed(distance=15_000)) == "LegTooLong 1"
    assert fault_of(changed(distance="-1")) == "BadElement distance"
    assert fault_of(changed(distance=None)) == "BadElement distance"
    points = [FIRST, FIRST._replace(longitude="7.42", distance="15000.5"), LAST]
    assert fault_of(PhysicalReference("line", points)) == "LegTooLong 2"


def test_shares() -> None:
    """Of the first leg and of the last one, in 256ths."""
    for share in range(256):
        begin = share * Decimal(250) / 256
        for offset in (begin or "0.000001", begin + Decimal("0.9765")):
            found = written(LINE._replace(positive=offset, negative=offset))
            assert (found.positive, found.negative) == (share, share)
    for none in (None, 0, "0", "0.0", "-0"):
        found = written(LINE._replace(positive=none, negative=none))
        assert (found.positive, found.negative) == (None, None)
    points = [FIRST, FIRST._replace(longitude="7.42", distance=1000), LAST]
    found = written(PhysicalReference("line", points, positive=125, negative=125))
    assert (found.positive, found.negative) == (128, 32)
    assert fault_of(LINE._replace(positive=250)) == "OffsetTooLong positive"
    assert fault_of(LINE._replace(negative="250.5")) == "OffsetTooLong negative"
    assert fault_of(changed(distance=0)._replace(positive=1)) == "OffsetTooLong positive"
    assert written(changed(distance=0)._replace(positive=0)).positive is None
    assert fault_of(LINE._replace(positive=-1)) == "BadElement positive"
    assert fault_of(ALONG._replace(negative=1)) == "BadElement negative"
    assert written(ALONG._replace(negative=0, positive=125)).positive == 128


@pytest.mark.parametrize(
    ("degrees", "number"),
    [
        # A step has 360 / 2^24 = 0.00002145767 degrees; half a step lies between 0 and 1, and then they are whole.
        ("0", 0),
        ("0.0000053", 0),
        ("0.0000054", 1),
        ("0.0000214", 1),
        ("0.0000215", 2),
        ("-0.0000053", 0),
        ("-0.0000054", -1),
        ("-0.0000215", -2),
        # The worked example of the format: 6.12683 and 49.60851 degrees.
        ("6.12683", 0x045B5B),
        ("49.60851", 0x2346F5),
        ("180", (1 << 23) - 1),
        ("-180", -(1 << 23)),
    ],
)
def test_absolute_numbers(degrees: str, number: int) -> None:
    found = absolute_number(units_of(degrees) or 0, 180 * DEGREE)
    assert found == number


def test_the_nearest_number() -> None:
    """No neighbour is nearer, and none is beyond the limit."""
    for limit in (80, 180):
        for part in range(-400, 401):
            value = limit * ONE * part // 400
            number = absolute_number(value, limit * DEGREE)
            errors = {
                other: abs(absolute(other) * DEGREE - value)
                for other in (number - 1, number, number + 1)
                if abs(absolute(other)) <= limit * DEGREE and -(1 << 23) <= other < 1 << 23
            }
            assert number in errors and errors[number] <= min(errors.values()) + DEGREE


def test_relative_numbers() -> None:
    """To the nearest ten microdegrees, from where the point before is when it is read; not beyond a limit."""
    micro = ONE // DEGREE
    for value, number in ((0, 0), (4, 0), (5, 1), (14, 1), (-4, 0), (-6, -1), (327_674, 32_767)):
        assert relative_number(value * micro, 0, DEGREE) == number
    assert relative_number(80 * ONE, 80 * DEGREE - 5, 80 * DEGREE) == 0
    assert relative_number(-80 * ONE, 5 - 80 * DEGREE, 80 * DEGREE) == 0


def test_errors_dont_add_up() -> None:
    """30 points at a distance of 14 microdegrees, which is no whole number of steps."""
    places = [
        (Decimal(7) + n * Decimal("0.000014"), 51 - n * Decimal("0.000014")) for n in range(31)
    ]
    points = [FIRST._replace(longitude=lon, latitude=lat) for lon, lat in places]
    found = written(PhysicalReference("line", points)).points
    for point, (lon, lat) in list(zip(found, places))[1:]:
        assert abs(point.lon - lon * DEGREE) <= 5 and abs(point.lat - lat * DEGREE) <= 5


def test_points_that_are_too_far() -> None:
    """16 bits are 0.32767 degrees upwards and 0.32768 downwards, from the point before as it is read."""
    start = FIRST._replace(longitude=0, latitude=0)
    for lon, lat in (("0.327674", "0"), ("0", "-0.327684")):
        points = [start, LAST._replace(longitude=lon, latitude=lat)]
        assert written(PhysicalReference("line", points)).points[1].lon in (327_670, 0)
    for lon, lat in (("0.327676", "0"), ("-0.327686", "0"), ("0", "0.4"), ("0", "-0.4")):
        points = [start, LAST._replace(longitude=lon, latitude=lat)]
        assert fault_of(PhysicalReference("line", points)) == "TooFar 2"
    points = [start._replace(longitude="179.9"), LAST._replace(longitude="-179.9", latitude=0)]
    assert fault_of(PhysicalReference("line", points)) == "TooFar 2"


def test_limits_of_coordinates() -> None:
    for sign in ("", "-"):
        first = FIRST._replace(longitude=f"{sign}179.9", latitude=f"{sign}79.9")
        last = LAST._replace(longitude=f"{sign}180", latitude=f"{sign}80.0")
        for points in ([first, last], [first._replace(longitude=last.longitude), last]):
            assert written(PhysicalReference("line", points)).points[1].lon
        assert fault_of(changed(latitude=f"{sign}80.000001")) == "OutOfRange 1"
        far = last._replace(longitude=f"{sign}180.000001")
        assert fault_of(PhysicalReference("line", [first, far])) == "OutOfRange 2"


@pytest.mark.parametrize(
    ("text", "units"),
    [
        ("5", 5 * ONE),
        (" 5\n", 5 * ONE),
        ("+5", 5 * ONE),
        ("5.", 5 * ONE),
        (".5", ONE // 2),
        ("-.5", -ONE // 2),
        ("5e2", 500 * ONE),
        ("5E-1", ONE // 2),
        ("-0.25", -ONE // 4),
        ("0.0000000000019", 1),
        ("-0.0000000000019", -2),
        ("1e-999999999", 0),
        (Decimal("1.5"), 3 * ONE // 2),
        (7, 7 * ONE),
        *((text, None) for text in ("", "x", "NaN", "INF", "1_0", "0x1", "1,5", "٣", "1 2", "--1")),
        *((text, None) for text in ("1e999999999", "1e" + "9" * 25, "9" * 60, Decimal("NaN"))),
        (None, None),
    ],
)
def test_numbers(text: Any, units: int | None) -> None:
    assert units_of(text) == units


@pytest.mark.parametrize("field", PhysicalPoint._fields)
def test_a_field_that_is_missing_or_odd(field: str) -> None:
    for value in (None, "odd", "8.5" if field not in ("longitude", "latitude") else "x"):
        if value != "8.5" or field not in ("bearing", "distance"):
            assert fault_of(changed(**{field: value})) == f"BadElement {field.removesuffix('_')}"
    if field in ("class_", "form", "lowest"):
        assert fault_of(changed(**{field: 8})) == f"BadElement {field.removesuffix('_')}"
        assert fault_of(changed(**{field: -1})) == f"BadElement {field.removesuffix('_')}"


def test_other_faults() -> None:
    assert fault_of(PhysicalReference("line", [FIRST] * 33)) == "TooManyPoints 33"
    assert len(written(PhysicalReference("line", [FIRST] * 32)).points) == 32
    assert fault_of(PhysicalReference("line", [LAST])) == "BadElement points"
    assert fault_of(ALONG._replace(points=[FIRST, FIRST, LAST])) == "BadElement points"
    assert fault_of(ALONG._replace(side=4)) == "BadElement side"
    assert fault_of(ALONG._replace(orientation="")) == "BadElement orientation"
    names = {"bearing": "BEAR"}
    with pytest.raises(Fault, match="^BadElement BEAR: "):
        base64_of(changed(bearing=None), names)
