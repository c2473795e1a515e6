//! Laws as text.

use reference::laws::laws_of;
use reference::meter::Law;

#[test]
fn each_law_by_its_numbers() {
    let laws = laws_of(
        "# a comment\nramp 1 fixed 3750.5\nramp 64 alinea gain -0.1 target 2e4\n\
         ramp 3 demand-capacity capacity 1 critical 2 least 3 # more\n",
    )
    .unwrap();
    assert_eq!(laws[0], Law::Fixed { rate: 3750.5 });
    assert_eq!(laws[1], Law::Fixed { rate: 0.0 });
    let (gain, target) = (-0.1, 20_000.0);
    assert_eq!(laws[63], Law::Alinea { gain, target });
    let (capacity, critical, least) = (1.0, 2.0, 3.0);
    let law = Law::DemandCapacity {
        capacity,
        critical,
        least,
    };
    assert_eq!(laws[2], law);
}

#[test]
fn faults_are_named_with_their_line() {
    for (text, wanted) in [
        ("cell 1", "line 1: 'ramp' is expected here, not 'cell'"),
        (
            "\nramp 65 fixed 1",
            "line 2: the ramp's cell: 65 is more than 64",
        ),
        ("ramp 0 fixed 1", "line 1: there is no cell 0, only 1 to 64"),
        (
            "ramp 1 fixed 1\nramp 1 fixed 1",
            "line 2: ramp 1 is given twice",
        ),
        ("ramp 1 open", "line 1: unknown law 'open'"),
        (
            "ramp 1 fixed one",
            "line 1: the rate should be a number, not 'one'",
        ),
        ("ramp 1 fixed 1 2", "line 1: '2' is too much on this line"),
        (
            "ramp 1 alinea gain",
            "line 1: gain is missing at the end of the line",
        ),
        (
            "ramp 1 alinea target 1",
            "line 1: 'gain' is expected here, not 'target'",
        ),
    ] {
        assert_eq!(laws_of(text).unwrap_err().to_string(), wanted);
    }
}
