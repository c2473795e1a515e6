//! Lists to lend: no two neighbouring numbers are equal, and there are guards before and
//! after that no call may change.

/// Entries of a guard.
pub const GUARD: usize = 8;

pub struct Lent<T> {
    all: Vec<T>,
}

impl<T: Copy> Lent<T> {
    fn new(length: usize, entry: impl Fn(usize) -> T) -> Lent<T> {
        let all = (0..length + 2 * GUARD).map(entry).collect();
        Lent { all }
    }

    /// What is lent.
    pub fn list(&mut self) -> &mut [T] {
        let end = self.all.len() - GUARD;
        &mut self.all[GUARD..end]
    }

    /// All of it afterwards, guards too.
    pub fn all(self) -> Vec<T> {
        self.all
    }
}

pub fn numbers(length: usize) -> Lent<u32> {
    Lent::new(length, |i| 4_000_000_000 + i as u32)
}

/// For the answers of many studies.
pub fn answers(length: usize) -> Lent<u64> {
    Lent::new(length, |i| u64::MAX - i as u64)
}

pub fn bytes(length: usize) -> Lent<u8> {
    Lent::new(length, |i| (7 * i + 3) as u8)
}

/// Bytes that are given and may be written, between guards.
pub fn given(bytes: &[u8]) -> Lent<u8> {
    let mut lent = self::bytes(bytes.len());
    lent.list().copy_from_slice(bytes);
    lent
}
