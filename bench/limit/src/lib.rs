//! The run in an expert's C (limit.c), with a safe call.
#![deny(missing_docs, clippy::undocumented_unsafe_blocks)]
use nobyaluk::Ended;

/// The compiler that made it.
pub const COMPILER: &str = env!("LIMIT_COMPILER");

extern "C" {
    fn limit_run(record: *const u8, bytes: usize, list: *mut u32, count: usize) -> Ended;
}

/// Runs a record with all lanes open into a lent list: the answer of [`nobyaluk::lent::run`], whose `number` is 0 without a refusal.
#[must_use = "it may be a refusal"]
pub fn run(record: &[u8], list: &mut [u32]) -> Ended {
    // SAFETY: both are slices that are borrowed for the whole call, each passed with its length; the list, which is written, is borrowed alone.
    unsafe { limit_run(record.as_ptr(), record.len(), list.as_mut_ptr(), list.len()) }
}

#[cfg(test)]
mod tests {
    use super::run;
    use nobyaluk::Refusal;

    /// The input of the printed run, and two lists: long enough, and one number too short.
    #[test]
    fn the_printed_run() {
        let record = include_bytes!("../../../examples/printed-run.rec");
        let mut list = [7; 10];
        let ended = run(record, &mut list);
        assert_eq!((ended.number, ended.total, ended.exits), (0, 33_098, 3_701));
        assert_eq!(list, [1500, 934, 1000, 1358, 933, 1000, 1252, 934, 1000, 7]);
        let mut short = [7; 8];
        let refusal = Refusal::from_number(run(record, &mut short).number);
        assert_eq!(refusal, Refusal::ListLength);
        assert_eq!(short, [7; 8]);
    }
}
