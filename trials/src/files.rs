//! The cases by hand and the reference's answers as files, for the tests of other
//! languages.
//!
//! `cases` has the frames. `answers` has for each case a count of four bytes, then so
//! many numbers of eight bytes, big-endian: all numbers of the answer in their order.
//! `further-cases` and `further-answers` have those that go on from a state and those of
//! many studies.

use crate::by_reference::Reference;
use crate::frame;
use crate::whole;
use std::fs;
use std::path::Path;
use trials::cases::all_cases;
use trials::cases::case::Case;

pub fn write(folder: &Path) -> Result<(), String> {
    let further = |case: &Case| matches!(case, Case::On(_) | Case::Many(_));
    let (further, first): (Vec<Case>, Vec<Case>) = all_cases().into_iter().partition(further);
    fs::create_dir_all(folder).map_err(|e| format!("{}: {e}", folder.display()))?;
    write_part(folder, "", &first)?;
    write_part(folder, "further-", &further)
}

fn write_part(folder: &Path, part: &str, all: &[Case]) -> Result<(), String> {
    let (mut cases, mut answers) = (Vec::new(), Vec::new());
    for case in all {
        frame::encode(case, &mut cases);
        let whole = whole::answer(&Reference, case);
        let parts = whole.fields().map(|field| &field.numbers);
        let numbers: Vec<u64> = parts.flatten().copied().collect();
        answers.extend((numbers.len() as u32).to_be_bytes());
        answers.extend(numbers.iter().flat_map(|number| number.to_be_bytes()));
    }
    for (name, bytes) in [("cases", cases), ("answers", answers)] {
        let path = folder.join(format!("{part}{name}"));
        fs::write(&path, bytes).map_err(|e| format!("{}: {e}", path.display()))?;
    }
    Ok(())
}
