"""Detector files as they are: gaps by a stated rule, all faults of a file at once, times of any form and name, wide and long."""
import re

import pytest
from nobyaluk import StudyError, load
from nobyaluk.errors import FaultList

ROAD = """
step = 20
start = "07:00"
steps = 30
[gate]
capacity = 4400
[defaults]
length = 0.5
speed = 90
jam = 250
capacity = 4400
[[cell]]
[[cell]]
ramp = "North"
[[cell]]
[meter.all]
law = "open"
[arrivals]
file = "counts.csv"
unit = "count"
"""
MINUTES = [(40 + m, 5 + m % 3) for m in range(12)]  # vehicles at the gate and at North, minute by minute from 07:00


@pytest.fixture
def study(tmp_path):
    """study(text, ..): a study of one-minute counts in this text."""

    def loaded(text, *more, road=ROAD):
        (tmp_path / "counts.csv").write_text(text)
        (tmp_path / "road.toml").write_text(road + "\n".join(more))
        return load(tmp_path / "road.toml")

    return loaded


def wide(change=lambda m, gate, north: (gate, north), heading="time,gate,North", minutes=range(12)):
    rows = [(m, *change(m, *MINUTES[m])) for m in minutes]
    return heading + "\n" + "".join(f"07:{m:02d},{gate},{north}\n" for m, gate, north in rows)


def long(left_out=(), heading="time,detector,count"):
    rows = [(m, d, x) for m, pair in enumerate(MINUTES) for d, x in zip(("gate", "North"), pair) if (m, d) not in left_out]
    return heading + "\n" + "".join(f"07:{m:02d},{d},{x}\n" for m, d, x in rows)


def came(s):
    """Vehicles at the gate in each minute."""
    return [int(x) / 1000 for x in s.record.rows[:, 0].reshape(-1, 3).sum(1)]


WHOLE = [float(40 + m) for m in range(10)]


def faults(run, *arguments, **more):
    with pytest.raises(StudyError) as caught:
        run(*arguments, **more)
    return str(caught.value)


def test_without_gaps_the_rule_changes_nothing(study):
    for rule in ("fault", "hold", "interpolate"):
        for text in (wide(), long()):
            s = study(text, f'gaps = "{rule}"')
            assert came(s) == WHOLE and not s.filled and not s.notes


@pytest.mark.parametrize("mark", ["", "NaN", "nan", "NA", "n/a", "null", "None", "-", "-1", "-1.0", "−1", "-99", "-9999"])
def test_marks_of_a_gap(study, mark):
    """A field without a number is a fault, unless a rule fills it; what was filled is noted and listed."""
    text = wide(lambda m, gate, north: (mark if m in (3, 4) else gate, north))
    said = faults(study, text)
    assert "counts.csv, rows 5, 6, column 'gate' is" in said or "counts.csv, rows 5 to 6, column 'gate' is" in said
    assert 'gaps = "hold"' in said
    s = study(text, 'gaps = "hold"')
    assert came(s) == [40, 41, 42, 42, 42, 45, 46, 47, 48, 49]
    (x,) = s.filled
    assert (x.name, x.begin, x.end, x.rows, x.numbers, x.rule) == ("gate", "07:03:00", "07:05:00", 2, "42", "hold") and x.original == (mark or "empty")
    assert len(s.notes) == 1 and "2 of 10 rows had no number" in s.notes[0] and "07:03:00 to 07:05:00" in s.notes[0]
    s = study(text, 'gaps = "interpolate"')
    assert came(s) == WHOLE and s.filled[0].numbers == "43 to 44"


def test_other_negative_numbers_are_faults(study):
    for bad in ("-3", "-12.5", "x", "3OO"):
        said = faults(study, wide(lambda m, gate, north: (bad if m == 3 else gate, north)), 'gaps = "hold"')
        assert "counts.csv, row 5, column 'gate' is" in said and bad in said


@pytest.mark.parametrize("rule, found", [("hold", [40, 41, 42, 43, 43, 43, 46, 47, 48, 49]), ("interpolate", WHOLE)])
def test_missing_minutes(study, rule, found):
    """Of all places in a wide file, of one in a long file."""
    s = study(wide(minutes=[m for m in range(12) if m not in (4, 5)]), f'gaps = "{rule}"')
    assert came(s) == found and [(x.name, x.rows, x.original) for x in s.filled] == [("gate", 2, "no row"), ("North", 2, "no row")]
    s = study(long({(4, "gate"), (5, "gate"), (7, "North")}), f'gaps = "{rule}"')
    assert came(s) == found and [(x.name, x.rows) for x in s.filled] == [("gate", 2), ("North", 1)]
    s = study(long({(m, d) for m in (4, 5) for d in ("gate", "North")}), f'gaps = "{rule}"')
    assert came(s) == found


def test_missing_minutes_by_the_rule_fault(study):
    without = wide(minutes=[m for m in range(12) if m not in (4, 5)])
    said = faults(study, without, 'gaps = "fault"')
    assert "counts.csv, row 6: it begins 180 s after the row before it, and most rows 60 s: 2 are missing" in said
    assert any("180 s" in x for x in study(without).notes)  # without a rule a row lasts until the next one
    said = faults(study, long({(4, "gate")}))
    assert "counts.csv, row 10: 'gate' has no row for this time" in said and 'gaps = "hold"' in said


def test_rows_off_the_interval(study):
    text = wide().replace("07:05,", "07:05:30,")
    assert "row 7: it begins 90 s after the row before it, and most rows 60 s" in faults(study, text, 'gaps = "hold"')
    assert study(text).notes


def test_too_much_is_missing(study):
    """Rows a billionth of a second apart, and then ten minutes without any."""
    text = "time,gate,North\n07:00:00.000000000,1,1\n07:00:00.000000001,1,1\n07:00:00.000000002,1,1\n07:10,1,1\n07:20,1,1\n"
    assert "row 5: it begins 600 s after the row before it, and most rows 1e-09 s" in faults(study, text, 'gaps = "hold"')


def test_nothing_to_fill_with(study):
    first = wide(lambda m, gate, north: ("NaN" if m < 2 else gate, north))
    for rule, says in (("hold", "none before it to hold"), ("interpolate", "none before it")):
        said = faults(study, first, f'gaps = "{rule}"')
        assert "counts.csv, row 2: 'gate' has no number from 07:00:00 to 07:02:00 (NaN), and there is " + says in said
    last = wide(lambda m, gate, north: ("NaN" if m > 8 else gate, north))
    assert "none after it" in faults(study, last, 'gaps = "interpolate"')
    assert came(study(last, 'gaps = "hold"'))[-1] == 48
    # rows before the study count as numbers before it, and rows after its end need none
    early = first.replace("07:00,", "06:59,39,5\n07:00,", 1)
    assert came(study(early, 'gaps = "hold"'))[:3] == [39, 39, 42] and came(study(early, 'gaps = "interpolate"')) == WHOLE
    assert came(study(wide(lambda m, gate, north: ("NaN" if m > 9 else gate, north)))) == WHOLE


def test_all_faults_at_once(study):
    """Every kind of fault in one call, alike ones together with their rows."""
    lines = wide(lambda m, gate, north: (gate, {2: "NaN", 3: "NaN", 6: "x", 8: ""}.get(m, north))).splitlines()
    lines[6] = "07:61,45,5"
    lines[8] = "07:02,47,6"
    lines[10] += ",7"
    said = faults(study, "\n".join(lines)).splitlines()
    assert re.fullmatch(r".*counts\.csv: 7 faults:", said[0])
    assert said[1:] == [
        "  rows 4 to 5, column 'North' is 'NaN', where a number is needed",
        "  row 7: '07:61' is no clock time like 07:30 or 07:30:20",
        "  row 8, column 'North' is 'x', where a number is needed",
        "  row 9: its time does not come after the row before it",
        "  row 10, column 'North' is empty; write 0 where nothing came",
        "  row 11: 4 fields under 3 headings",
        '  `gaps = "hold"` or `gaps = "interpolate"` fills what a detector missed',
    ]


def test_what_a_file_lacks_at_its_ends_is_told_beside_its_gaps(study):
    text = wide(lambda m, gate, north: ("NaN" if m == 3 else gate, north), minutes=range(2, 9))
    said = faults(study, text).splitlines()
    assert said[1:4] == ["  row 2: the first row begins 120 s after step 0; step 0 needs a row", "  row 3, column 'gate' is 'NaN', where a number is needed",
                         "  row 8: counts end 540 s after the beginning of step 0; 30 steps last 600 s"]


@pytest.mark.parametrize("unit", ["count", "veh/h"])
def test_a_file_that_ends_before_the_study(study, unit):
    """By a rule the last row holds no longer than the others: what comes after it is a gap like any other."""
    text, road = wide(minutes=range(8)), ROAD.replace('"count"', f'"{unit}"')
    held = study(text, 'gaps = "hold"', road=road)
    assert [(x.name, x.begin, x.end, x.rows, x.original) for x in held.filled] == [(name, "07:08:00", "07:10:00", 2, "no row") for name in ("gate", "North")]
    assert came(held)[8:] == pytest.approx([came(held)[7]] * 2, abs=0.002)
    assert "'gate' has no number from 07:08:00 to 07:10:00 (no row), and there is none after it" in faults(study, text, 'gaps = "interpolate"', road=road)
    said = faults(study, text, 'gaps = "fault"', road=road)
    assert ("counts end 480 s" if unit == "count" else "row 9: it is the last row, from 07:07:00 to 07:08:00, and the study ends at 07:10:00: 2 are missing") in said
    if unit == "veh/h":
        assert not study(text, road=road).filled  # without a rule the last rate holds to the end


def test_all_faults_of_a_long_file(study):
    text = long({(2, "North")}).replace("07:05,gate", "07:05,gatte").replace("07:07,gate,47", "07:07,gate,NaN").replace("07:09,gate", "07:08,gate")
    said = faults(study, text)
    for part in ("'gatte' is not one of gate, North", "did you mean 'gate'?", "is 'NaN'", "'North' has no row for this time", "'gate' has a row for 07:08 already"):
        assert part in said, said
    assert all("row" in line for line in said.splitlines()[1:-1])


def test_a_file_of_hundreds_of_faults_is_told_in_short(study):
    text = wide(lambda m, gate, north: (f"x{m}", f"y{m}"))
    said = faults(study, text)
    assert "20 faults" in said and len(said.splitlines()) == 21
    f = FaultList("a.csv")
    for row in range(2, 400, 2):
        f.add(row, ": odd")
        f.add(row, f": odd {row}")
    said = faults(f.check)
    assert "a.csv: 398 faults:" in said and "rows 2, 4, 6, 8, 10, 12, 14, 16, and 191 more: odd" in said and len(said) < 2000


FORMS = {
    "a heading in German": ("Zeit,gate,North", lambda m: f"07:{m:02d}"),
    "day first": ("Zeitpunkt,gate,North", lambda m: f"12.05.2026 07:{m:02d}"),
    "ISO with an offset": ("timestamp,gate,North", lambda m: f"2026-05-12T07:{m:02d}:00+02:00"),
    "UTC": ("t,gate,North", lambda m: f"2026-05-12T07:{m:02d}:00Z"),
}


@pytest.mark.parametrize("form", FORMS)
def test_a_time_column_by_any_name(study, form):
    heading, at = FORMS[form]
    text = heading + "\n" + "".join(f"{at(m)},{gate},{north}\n" for m, (gate, north) in enumerate(MINUTES))
    assert came(study(text)) == WHOLE
    moved = "\n".join(",".join(line.split(",")[1:] + line.split(",")[:1]) for line in text.splitlines())
    assert came(study(moved)) == WHOLE
    long_text = heading.split(",")[0] + ";Messstelle;Kfz\n" + "".join(f"{at(m)};{d};{x}\n" for m, pair in enumerate(MINUTES) for d, x in zip(("gate", "North"), pair))
    assert came(study(long_text, 'columns = { Messstelle = "detector", Kfz = "count" }')) == WHOLE


def test_days_in_a_column_of_their_own(study):
    text = "Datum;Uhrzeit;gate;North\n" + "".join(f"12.05.2026;07:{m:02d};{gate};{north}\n" for m, (gate, north) in enumerate(MINUTES))
    assert came(study(text)) == WHOLE
    two = text + "".join(f"13.05.2026;07:{m:02d};0;0\n" for m in range(12))
    assert came(study(two)) == WHOLE and came(study(two, road=ROAD.replace('"07:00"', '"2026-05-13 07:00"'))) == [0] * 10
    assert came(study(text.replace("Datum", "date").replace("Uhrzeit", "time"))) == WHOLE


def test_two_columns_of_times(study):
    text = "von,bis,gate,North\n" + "".join(f"07:{m:02d},07:{m + 1:02d},{gate},{north}\n" for m, (gate, north) in enumerate(MINUTES))
    said = faults(study, text)
    assert "columns 'von', 'bis' are all times" in said and 'columns = { von = "time" }' in said
    assert came(study(text, 'columns = { von = "time", bis = "-" }')) == WHOLE


def test_numbers_under_an_unknown_heading(study):
    said = faults(study, long(heading="time,detector,q (Kfz)"))
    assert said.endswith("""; `columns` may say which one has the numbers, as columns = { "q (Kfz)" = "count" }""")
    assert came(study(long(heading="time,detector,q (Kfz)"), 'columns = { "q (Kfz)" = "count" }')) == WHOLE


def test_what_the_rule_may_be(study):
    assert '`gaps` is \'linear\'; it is "fault", "hold" or "interpolate"' in faults(study, wide(), 'gaps = "linear"')
    s = study(wide(), road=ROAD.replace('file = "counts.csv"\nunit = "count"\n', "step = [0]\ngate = [3000]\nNorth = 0\n"))
    assert s.run().total > 0


def test_gaps_of_a_day_are_filled_in_a_second(study):
    """A month of one-minute counts with every twentieth missing, of which the study takes an hour."""
    minutes = [(d, m) for d in range(1, 29) for m in range(1440)]
    text = "time,gate,North\n" + "".join(f"2026-02-{d:02d} {m // 60:02d}:{m % 60:02d},{'NaN' if m % 20 == 7 else 40},5\n" for d, m in minutes)
    s = study(text, 'gaps = "hold"', road=ROAD.replace("steps = 30", "steps = 180").replace('"07:00"', '"2026-02-14 07:00"'))
    assert s.record.rows[:, 0].sum() == 2_400_000 and len(s.filled) == 3


def test_run_lists_what_was_filled(study, tmp_path, capsys):
    from nobyaluk.cli import main

    study(wide(lambda m, gate, north: ("NaN" if m in (3, 4) else gate, north)), 'gaps = "hold"')
    assert main(["run", str(tmp_path / "road.toml")]) == 0
    assert 'gate: 2 of 10 rows had no number and were filled by gaps = "hold": 07:03:00 to 07:05:00 (NaN: 42)' in capsys.readouterr().out
