//! The program's own files: what it reads and writes.

use crate::support::*;
use std::fs;
use std::path::PathBuf;
use std::process::{Command, Output};

/// A folder of its own for a test, removed at the end.
struct Folder(PathBuf);

impl Folder {
    /// An empty one.
    fn new(name: &str) -> Folder {
        let path = PathBuf::from(env!("CARGO_TARGET_TMPDIR")).join(name);
        let _ = fs::remove_dir_all(&path);
        fs::create_dir_all(&path).unwrap();
        Folder(path)
    }

    /// Writes a file, and gives the path.
    fn file(&self, name: &str, bytes: &[u8]) -> PathBuf {
        let path = self.0.join(name);
        fs::write(&path, bytes).unwrap();
        path
    }

    /// The program in this folder with these words.
    fn reference(&self, words: &[&str]) -> Output {
        let mut command = Command::new(env!("CARGO_BIN_EXE_reference"));
        command.current_dir(&self.0).args(words).output().unwrap()
    }
}

impl Drop for Folder {
    fn drop(&mut self) {
        let _ = fs::remove_dir_all(&self.0);
    }
}

/// What a program wrote to standard error.
fn said(output: &Output) -> &str {
    std::str::from_utf8(&output.stderr).unwrap()
}

#[test]
fn a_text_into_a_record_file_and_back() {
    let folder = Folder::new("both-ways");
    folder.file("road.txt", EXAMPLE.as_bytes());
    let made = folder.reference(&["record", "road.txt", "road.rec"]);
    assert!(made.status.success() && made.stdout.is_empty());
    let record = fs::read(folder.0.join("road.rec")).unwrap();
    assert_eq!(record, record_of(EXAMPLE));
    assert_eq!(folder.reference(&["record", "road.txt"]).stdout, record);
    let output = folder.reference(&["text", "road.rec", "again.txt"]);
    assert!(output.status.success());
    let text = fs::read_to_string(folder.0.join("again.txt")).unwrap();
    assert_eq!(record_of(&text), record);
}

#[test]
fn after_an_error_there_is_no_output_file() {
    let folder = Folder::new("errors");
    folder.file("road.txt", b"steps 1\nlane 3\n");
    folder.file("short.rec", &[0; 7]);
    let made = folder.reference(&["record", "road.txt", "road.rec"]);
    assert_eq!(made.status.code(), Some(1));
    let wanted = "reference: road.txt: line 2: unknown statement 'lane'\n";
    assert_eq!(said(&made), wanted);
    let output = folder.reference(&["text", "short.rec", "short.txt"]);
    assert_eq!(output.status.code(), Some(1));
    assert!(said(&output).starts_with("reference: short.rec: a record of 7 bytes"));
    let none = folder.reference(&["record", "none.txt", "none.rec"]);
    assert!(said(&none).starts_with("reference: none.txt: "));
    for name in ["road.rec", "short.txt", "none.rec"] {
        assert!(!folder.0.join(name).exists(), "{name}");
    }
    assert_eq!(
        folder.reference(&["record", "a", "b", "c"]).status.code(),
        Some(2)
    );
}

#[test]
fn a_record_filled_by_the_laws_of_a_file() {
    let folder = Folder::new("fill");
    folder.file("road.rec", &record_of(EXAMPLE));
    folder.file("laws.txt", b"ramp 2 alinea gain 0.1 target 4500\n");
    folder.file("spoilt.txt", b"ramp 2 fixed nan\n");
    let filled = folder.reference(&["fill", "road.rec", "laws.txt"]);
    // The releases 50, 120 and 190 in place of 300.
    let mut draft = example_draft();
    for (row, release) in draft.rows.iter_mut().zip([50, 120, 190]) {
        row[4] = release;
    }
    assert_eq!(filled.stdout, draft.encode());
    let refused = folder.reference(&["fill", "road.rec", "spoilt.txt"]);
    let wanted = "reference: refused 16 0 2: a ramp's meter law has a number that isn't finite\n";
    assert_eq!(said(&refused), wanted);
    assert!(refused.stdout.is_empty());
}

#[test]
fn a_law_that_nothing_follows_is_warned_of() {
    let folder = Folder::new("unused-law");
    folder.file("road.rec", &record_of(EXAMPLE));
    let laws = "ramp 2 fixed 0\nramp 1 fixed 5\n\nramp 3 fixed 5\n";
    folder.file("laws.txt", laws.as_bytes());
    let filled = folder.reference(&["fill", "road.rec", "laws.txt"]);
    assert!(filled.status.success() && filled.stdout.len() == 124);
    let wanted = "\
reference: warning: laws.txt: line 2: cell 1 has no ramp: its law is not used
reference: warning: laws.txt: line 4: cell 3 has no ramp: its law is not used
";
    assert_eq!(said(&filled), wanted);
}

#[test]
fn refused_runs_and_schedules_end_with_1_and_say_why() {
    let folder = Folder::new("refused");
    let text = EXAMPLE.replace("release 300", "release 3000");
    folder.file("road.rec", &record_of(EXAMPLE));
    folder.file("refused.rec", &record_of(&text));
    folder.file("lanes.txt", b"cells 2\nsteps 3\nbuilt 2\n");
    folder.file("zeros.txt", b"0 0 0\n0 0 0\n0 0 0\n");
    folder.file("much.txt", b"9000 0 0\n0 0 0\n0 0 0\n");
    folder.file("short.txt", b"0 0 0\n0 0\n0 0 0\n");
    let calls: [(&[&str], i32, &str, &str); 5] = [
        (&["run", "road.rec", "lanes.txt"], 0, "", ""),
        (
            &["run", "refused.rec", "lanes.txt"],
            1,
            "refused 9 0 2\n",
            "reference: refused 9 0 2: a release above its ramp's queue and this step's arrivals there together\n",
        ),
        (&["judge", "road.rec", "zeros.txt"], 0, "", ""),
        (
            &["judge", "road.rec", "much.txt"],
            1,
            "refused 13 0 0\n",
            "reference: refused 13 0 0: an outflow above the demand of its place\n",
        ),
        (
            &["judge", "road.rec", "short.txt"],
            1,
            "refused 12 0 0\n",
            "reference: short.txt: line 2: the row of step 1 should have 3 numbers, gate first, not 2\n",
        ),
    ];
    for (words, status, printed, why) in calls {
        let output = folder.reference(words);
        assert_eq!(output.status.code(), Some(status), "{words:?}");
        assert_eq!(said(&output), why);
        if status == 1 {
            assert_eq!(output.stdout, printed.as_bytes());
        }
    }
}

#[test]
fn an_input_is_never_written_over() {
    let folder = Folder::new("same-file");
    let path = folder.file("road.txt", EXAMPLE.as_bytes());
    fs::hard_link(&path, folder.0.join("linked.txt")).unwrap();
    for other in ["road.txt", "./road.txt", "linked.txt"] {
        let made = folder.reference(&["record", "road.txt", other]);
        assert_eq!(made.status.code(), Some(1));
        let wanted = format!("reference: {other} is the input, which would be lost\n");
        assert_eq!(said(&made), wanted);
    }
    assert_eq!(fs::read(path).unwrap(), EXAMPLE.as_bytes());
}

#[test]
fn input_is_read_up_to_a_bound() {
    let folder = Folder::new("bounds");
    folder.file("long.txt", &[b'#'; (1 << 20) + 1]);
    let made = folder.reference(&["record", "long.txt"]);
    assert_eq!(
        said(&made),
        "reference: long.txt: more than 1048576 bytes\n"
    );
    let output = folder.reference(&["text", "/dev/zero"]);
    let wanted = "reference: /dev/zero: a record has at most 65536 bytes\n";
    assert_eq!(said(&output), wanted);
    folder.file("lanes.txt", b"cells 2\nsteps 3\nbuilt 2\n");
    let run = folder.reference(&["run", "/dev/zero", "lanes.txt"]);
    assert_eq!(run.stdout, b"refused 1 0 0\n");
}

#[test]
fn a_run_under_the_lanes_of_a_file() {
    let folder = Folder::new("lanes");
    folder.file("road.rec", &record_of(EXAMPLE));
    folder.file("laws.txt", b"ramp 2 fixed 1000000\n");
    folder.file(
        "lanes.txt",
        b"cells 2\nsteps 3\nbuilt 2\nclosed 2 cell 2 steps 1 to 1\n",
    );
    let run = folder.reference(&["run", "road.rec", "lanes.txt"]);
    let printed = String::from_utf8(run.stdout).unwrap();
    let wanted = ["1 0 1358 2142 0", "1 1 267 3657 0", "1 2 500 4000 1900"];
    assert_eq!(printed.lines().skip(4).take(3).collect::<Vec<_>>(), wanted);
    let filled = folder.reference(&["fill", "road.rec", "laws.txt", "lanes.txt"]);
    let mut draft = example_draft();
    for (row, release) in draft.rows.iter_mut().zip([1000, 500, 1000]) {
        row[4] = release;
    }
    assert_eq!(filled.stdout, draft.encode());
}

/// Twelve cells are too many for an exercise.
#[test]
fn an_exercise_of_a_file() {
    let folder = Folder::new("exercise");
    folder.file("road.rec", &record_of(EXAMPLE));
    let [run, exercise] = ["run", "exercise"].map(|word| folder.reference(&[word, "road.rec"]));
    assert!(exercise.status.success() && said(&exercise).is_empty());
    assert_eq!(exercise.stdout, run.stdout);
    let cell = "cell v 500 w 250 b 750 ramp 0 jam 8000 capacity 2000 held 2000 queue 0\n";
    let first = EXAMPLE.lines().nth(3).unwrap();
    assert_eq!(cell.trim_end(), first);
    let wide = EXAMPLE.replace(first, cell.repeat(11).trim_end());
    folder.file("wide.rec", &record_of(&wide.replace("ramp 2", "ramp 12")));
    assert!(folder.reference(&["run", "wide.rec"]).status.success());
    let refused = folder.reference(&["exercise", "wide.rec"]);
    assert_eq!(refused.status.code(), Some(1));
    assert_eq!(refused.stdout, b"refused 26 0 0\n");
    assert!(said(&refused).starts_with("reference: refused 26 0 0: "));
    for wrong in [
        &["exercise", "road.rec", "more"][..],
        &["compare", "road.rec"],
        &["exercises"],
    ] {
        assert_eq!(folder.reference(wrong).status.code(), Some(2));
    }
}
