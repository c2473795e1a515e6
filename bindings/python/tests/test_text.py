"""The text forms: what a text says is what is read, and anything else is a fault of its line."""
import pytest
import text_form as text
from nobyaluk import StudyError, engine
from nobyaluk.schedules import parse_schedule

TWO = "gate capacity 2000 queue 3000\ncell v 500 w 250 b 750 jam 8000 capacity 2000\ncell v 500 w 250 b 0 jam 8000 capacity 2000 ramp 1\n"
LONG = "9" * 5000


def fault(read, *arguments):
    with pytest.raises(StudyError) as caught:
        read(*arguments)
    assert len(str(caught.value)) < 400
    return str(caught.value)


def test_rows_by_name():
    rows = engine.read(text.record_of(TWO + "repeat 2 row gate 1000 ramp 2 arrivals 500 release 300\nrow 1 0 0 2 3\nrow\n")).rows
    assert rows.tolist() == [[1000, 0, 0, 500, 300]] * 2 + [[1, 0, 0, 2, 3], [0] * 5]


@pytest.mark.parametrize("row, says", [
    ("row gate 1000 ramp 0 release 700", "the ramp's cell is '0'; it is a whole number from 1 to 2"), ("row ramp -1 release 200", "the ramp's cell is '-1'"),
    ("row ramp 3 release 1", "'3'"), ("row ramp 2", None), ("row release 5", "'release' is neither"), ("row gate 1 gate 2", "there twice"),
    ("row ramp 2 release 1 release 2", "there twice"), ("row ramp 2 release", "missing at the end of the line"), ("row 1 2 3", "3 numbers; a row has 5"),
    ("row 4294967296 0 0 0 0", "'4294967296'; it is a whole number from 0 to 4294967295"), ("row ² 0 0 0 0", "'²'"), (f"row {LONG} 0 0 0 0", "'9999"),
    ("row 1 0 0 0 1_0", "'1_0'"), ("repeat 100000000000 row", "the count of repeats"), ("repeat 1441 row", "1 to 1440 rows"), ("repeat 65535 row", "1 to 1440 rows"),
    ("repeat x row", "the count of repeats is 'x'"), ("repeat 2 gate capacity 1", "twice"), ("repeat 2 steps 1", "can't be repeated"), (f"steps {LONG}", "`steps` is '999"),
    ("row\ncell v 1 w 1 b 0 jam 1 capacity 1", "cells come before the rows"), ("gate capacity 1", "`'gate'` is there twice"), ("damage cut 1", "the reference's converter may know it"),
    ("row gate 1 2", "'2' is neither gate nor ramp"), ("version 1 2\nrow", "'2' is too much on this line"), ("steps 2\nrow", "1 rows under `steps 2`"),
    ("seconds 20\nrow", "one of version 1 has none"), ("version 2\nrow", "has `seconds`"), ("cell v 1 w 1 b 0 jam 1", "`capacity` is missing"), ("cell v 1 v 1", "'v' is there twice"),
    (f"cell v {LONG}", "`v` is '999"), ("cell vv 1", "'vv' is not one of")])
def test_faults_of_a_record(row, says):
    if says is None:
        text.record_of(TWO + row + "\n")
    else:
        assert says in fault(text.record_of, TWO + row + "\n")


def test_a_text_without_a_gate_is_no_road():
    assert "it has no `gate`" in fault(text.record_of, TWO.partition("\n")[2] + "row\n")


def test_a_comment_ends_with_its_line():
    """However an editor ends lines; a byte-order mark is no word."""
    for end in ("\n", "\r\n", "\r"):
        assert text.record_of(("\ufeff# two cells\n" + TWO + "row 1 0 0 0 0\n").replace("\n", end)) == text.record_of(TWO + "row 1 0 0 0 0\n")


def test_laws():
    assert text.laws_of("ramp 2 fixed 1.5\nramp 3 alinea gain .5 target 4e3\nramp 4 demand-capacity capacity 1 critical 2 least 3 # all\n") == {
        2: ("fixed", 1.5), 3: ("alinea", 0.5, 4000.0), 4: ("demand-capacity", 1.0, 2.0, 3.0)}
    for law, says in (("ramp 2 fixed abc", "`rate` is 'abc', where a number is needed"), ("ramp 2 fixed 1_000", "1_000"), ("ramp 0 fixed 1", "from 1 to 64"), ("ramp 65 fixed 1", "from 1 to 64"),
                      (f"ramp {LONG} fixed 1", "from 1 to 64"), ("ramp ² fixed 1", "from 1 to 64"), ("ramp 2 fixed", "missing"), ("ramp 2 fixed 1 2", "too much"), ("ramp 2 open", "'open' is no law"),
                      ("ramp 2 alinea target 1 gain 2", "`gain` is expected"), ("ramp 2 fixed 1\nramp 2 fixed 2", "line 2: the ramp at cell 2 has a law already"), ("all fixed 1", "`ramp` is expected")):
        assert says in fault(text.laws_of, law)


def test_lanes():
    assert text.lanes_of("cells 2\nsteps 3\nbuilt 2\nbuilt 3 cell 2\nclosed 3 cell 2 steps 1 to 2\n") == bytes([3, 7, 3, 7, 3, 3, 3, 3])
    begin = "cells 2\nsteps 3\nbuilt 2\n"
    for lanes, says in (("cells 2\nsteps 1000000000\nbuilt 1", "`steps` is '1000000000'; it is a whole number from 1 to 1440"), ("cells 65", "from 1 to 64"), ("cells 0", "from 1 to 64"), (f"cells {LONG}", "from 1"),
                        ("cells ²", "'²'"), ("cells 2\nsteps 3\nbuilt 9", "from 1 to 8"), ("cells 2\nsteps 3\nbuilt 1 cell 2", "`built N` for every cell"), ("steps 3\nbuilt 1", "can't be here"),
                        (begin + "closed 3 cell 1 steps 0 to 1", "cell 1 has no lane 3"), (begin + "closed 1 cell 3 steps 0 to 1", "the cell is '3'"), (begin + "closed 1 cell 1 steps 2 to 1", "the last step is '1'"),
                        (begin + "closed 1 cell 1 steps 0 to 3", "the last step is '3'; it is a whole number from 0 to 2"), (begin + "cells 2", "can't be here"), (begin + "closed 1 cell 1 steps 0 to 1 2", "too much"),
                        (begin + "closed 1 cell 1 steps 0 to 1\nbuilt 3", "can't be here")):
        assert says in fault(text.lanes_of, lanes)


def test_schedules():
    assert text.schedule_of("1 2\n3 # three\n") == [1, 2, 3]
    for word in ("²", LONG, "4294967296", str(1 << 63), "-1", "1.0"):
        assert "line 1: " in fault(text.schedule_of, word)


def test_schedules_as_csv():
    read = lambda given: parse_schedule(given, 1).tolist()
    for given in ("1,2\n3,4\n", "gate,1\n1,2\n3,4\n", "step,gate,1\n0,1,2\n1,3,4\n", "Step;gate;1\r\n0;1;2\r\n1;3;4\r\n", "\ufeff1\t2\n3\t4\n", "# mine\n\n1,2\n# more\n3,4\n", '"1","2"\n3,4\n', '"a,b";"c,d"\n1;2\n3;4\n'):
        assert read(given) == [1, 2, 3, 4], given
    assert read("") == []
    for given, says in (("20.0,24.0\n", "row 1, column 1: '20.0' is no outflow; an outflow is a whole number of parts, thousandths of a vehicle"), ("1;2\n20,0;24,0\n", "row 2, column 1: '20,0'"),
                        ("20,0;24,0\n", "row 1, column 1: '20,0' is no outflow"),
                        ("20,0,24,0\n", "row 1: 4 outflows; a row has 2: the gate's, then each cell's; if a comma is the decimal mark"), ("gate,1\nfoo,2\n", "row 2, column 1: 'foo'"),
                        ("step,gate,1\n1,1,2\n", "`step` is '1', where step 0 comes next"), ("1,2\n3,\n", "row 2, column 2: ''"), ("1,2\n3,²\n", "'²'"), ("0,1,2\n", "3 outflows"), ("-1,2\n", "'-1'"),
                        (f"1,{LONG}\n", "column 2"), ("1," + "x" * 140_000, "field larger than field limit"), ("1 2\n", "1 outflows"), ("step,gate,1\n0,1,2.5\n", "row 2, column 3: '2.5'")):
        assert says in fault(read, given), given


def test_the_example_is_its_text(examples):
    table, words = ((examples / f"classroom-cut.schedule.{x}").read_text() for x in ("csv", "txt"))
    assert parse_schedule(table, 2).tolist() == text.schedule_of(words)
