//! The functions of the archive, as bindings/c/nobyaluk.h has them, and the one place where they are called.

use crate::types::{
    Ended, Filled, Granted, Lanes, Loaded, Longest, Many, Progress, Reading, Released, Road, Row,
    Start, State, Stepped, Tallied, Wanted, Weighed, Weights, Written,
};

/// Calls a function of the boundary. A list is passed as its pointer and its length: `[list]` to be read, `[mut list]` to be written.
macro_rules! call {
    (@ $name:ident($($ready:expr),*)) => {
        // SAFETY: a list is a slice that is borrowed for the whole call, and its length is passed with its pointer; one that is written is
        // borrowed alone. Structs are passed by value, laid out as in C. The function is proved to read and write nothing else, and to return.
        unsafe { $crate::raw::$name($($ready),*) }
    };
    (@ $name:ident($($ready:expr),*) [mut $list:ident] $(, $($rest:tt)*)?) => {
        $crate::raw::call!(@ $name($($ready,)* $list.as_mut_ptr(), $list.len()) $($($rest)*)?)
    };
    (@ $name:ident($($ready:expr),*) [$list:ident] $(, $($rest:tt)*)?) => {
        $crate::raw::call!(@ $name($($ready,)* $list.as_ptr(), $list.len()) $($($rest)*)?)
    };
    (@ $name:ident($($ready:expr),*) $value:ident $(, $($rest:tt)*)?) => {
        $crate::raw::call!(@ $name($($ready,)* $value) $($($rest)*)?)
    };
    ($name:ident($($arguments:tt)*)) => {
        $crate::raw::call!(@ $name() $($arguments)*)
    };
}
pub(crate) use call;

extern "C" {
    pub fn nobyaluk_version() -> u32;
    pub fn nobyaluk_read(record: *const u8, bytes: usize) -> Reading;
    pub fn nobyaluk_read_within(
        record: *const u8,
        bytes: usize,
        most_cells: usize,
        most_bytes: usize,
    ) -> Reading;
    pub fn nobyaluk_run(
        record: *const u8,
        bytes: usize,
        lanes: *const u8,
        lanes_count: usize,
        list: *mut u32,
        count: usize,
    ) -> Ended;
    pub fn nobyaluk_run_weighted(
        record: *const u8,
        bytes: usize,
        lanes: *const u8,
        lanes_count: usize,
        weights: Weights,
        list: *mut u32,
        count: usize,
    ) -> Weighed;
    pub fn nobyaluk_run_longest(
        record: *const u8,
        bytes: usize,
        lanes: *const u8,
        lanes_count: usize,
        list: *mut u32,
        count: usize,
    ) -> Longest;
    pub fn nobyaluk_judge(
        record: *const u8,
        bytes: usize,
        lanes: *const u8,
        lanes_count: usize,
        schedule: *const u32,
        count: usize,
    ) -> Ended;
    pub fn nobyaluk_history(
        record: *const u8,
        bytes: usize,
        lanes: *const u8,
        lanes_count: usize,
        schedule: *const u32,
        count: usize,
        held: *mut u32,
        held_count: usize,
        queue: *mut u32,
        queue_count: usize,
    ) -> Ended;
    pub fn nobyaluk_fill(
        record: *mut u8,
        bytes: usize,
        kinds: *const u8,
        kinds_count: usize,
        numbers: *const f64,
        numbers_count: usize,
        lanes: *const u8,
        lanes_count: usize,
        list: *mut u32,
        count: usize,
    ) -> Ended;
    pub fn nobyaluk_fill_longest(
        record: *mut u8,
        bytes: usize,
        kinds: *const u8,
        kinds_count: usize,
        numbers: *const f64,
        numbers_count: usize,
        lanes: *const u8,
        lanes_count: usize,
        list: *mut u32,
        count: usize,
    ) -> Longest;
    pub fn nobyaluk_run_on(
        record: *const u8,
        bytes: usize,
        lanes: *const u8,
        lanes_count: usize,
        weights: Weights,
        from: State,
        list: *mut u32,
        count: usize,
    ) -> Tallied;
    pub fn nobyaluk_judge_on(
        record: *const u8,
        bytes: usize,
        lanes: *const u8,
        lanes_count: usize,
        from: State,
        schedule: *const u32,
        count: usize,
    ) -> Ended;
    pub fn nobyaluk_history_on(
        record: *const u8,
        bytes: usize,
        lanes: *const u8,
        lanes_count: usize,
        from: State,
        schedule: *const u32,
        count: usize,
        held: *mut u32,
        held_count: usize,
        queue: *mut u32,
        queue_count: usize,
    ) -> Ended;
    pub fn nobyaluk_fill_on(
        record: *mut u8,
        bytes: usize,
        kinds: *const u8,
        kinds_count: usize,
        numbers: *const f64,
        numbers_count: usize,
        lanes: *const u8,
        lanes_count: usize,
        from: Progress,
        list: *mut u32,
        count: usize,
    ) -> Filled;
    pub fn nobyaluk_run_many(
        record: *mut u8,
        bytes: usize,
        lanes: *const u8,
        lanes_count: usize,
        arrivals: *const u32,
        arrivals_count: usize,
        list: *mut u32,
        count: usize,
        answers: *mut u64,
        answers_count: usize,
    ) -> Many;
    pub fn nobyaluk_fill_many(
        record: *mut u8,
        bytes: usize,
        kinds: *const u8,
        kinds_count: usize,
        numbers: *const f64,
        numbers_count: usize,
        lanes: *const u8,
        lanes_count: usize,
        arrivals: *const u32,
        arrivals_count: usize,
        list: *mut u32,
        count: usize,
        answers: *mut u64,
        answers_count: usize,
    ) -> Many;
    pub fn nobyaluk_write(
        road: Road,
        steps: usize,
        start: Start,
        rows: *const u32,
        count: usize,
        target: *mut u8,
        bytes: usize,
    ) -> Written;
    pub fn nobyaluk_rows(
        record: *const u8,
        bytes: usize,
        n: usize,
        steps: usize,
        list: *mut u32,
        count: usize,
    ) -> usize;
    pub fn nobyaluk_row(record: *const u8, bytes: usize, n: usize, step: usize) -> Row;
    pub fn nobyaluk_load(seed: u32, peak: u32, list: *mut u32, count: usize) -> Loaded;
    pub fn nobyaluk_wanted(
        start: u32,
        ceiling: u32,
        rate: u32,
        arrivals: *const u32,
        arrivals_count: usize,
        table: *mut u32,
        table_count: usize,
    ) -> Wanted;
    pub fn nobyaluk_grant(
        limit: u32,
        guarantees: *const u32,
        guarantees_count: usize,
        wishes: *const u32,
        wishes_count: usize,
        grants: *mut u32,
        grants_count: usize,
    ) -> Granted;
    pub fn nobyaluk_put(
        record: *mut u8,
        bytes: usize,
        step: usize,
        cell: usize,
        release: u32,
    ) -> Released;
    pub fn nobyaluk_join(
        upstream: *const u8,
        upstream_bytes: usize,
        downstream: *const u8,
        downstream_bytes: usize,
        share: u16,
        target: *mut u8,
        bytes: usize,
    ) -> Written;
    pub fn nobyaluk_step(
        road: Road,
        state: State,
        row: *const u32,
        numbers: usize,
        lanes: Lanes,
    ) -> Stepped;
    pub fn nobyaluk_present(road: Road, state: State) -> u64;
    pub fn nobyaluk_on_road(road: Road, state: State) -> u64;
    pub fn nobyaluk_at_ramps(road: Road, state: State) -> u64;
    pub fn nobyaluk_weighted(road: Road, state: State, weights: Weights) -> u64;
    pub fn nobyaluk_exits(road: Road, state: State) -> u64;
    pub fn nobyaluk_total(state: State) -> u64;
    pub fn nobyaluk_vehicle_seconds(seconds: u16, state: State) -> u64;
    pub fn nobyaluk_demand(speed: u16, capacity: u32, held: u32) -> u32;
    pub fn nobyaluk_gate_demand(capacity: u32, queue: u32) -> u32;
    pub fn nobyaluk_supply(wave: u16, capacity: u32, jam: u32, held: u32) -> u32;
    pub fn nobyaluk_room(supply: u32, release: u32) -> u32;
    pub fn nobyaluk_onward(share: u16, cumulative: u32) -> u64;
    pub fn nobyaluk_entering(share: u16, cumulative: u32, outflow: u32) -> u64;
    pub fn nobyaluk_outflow(share: u16, cumulative: u32, room: u32, demand: u32) -> u32;
    pub fn nobyaluk_outflow_by_halves(share: u16, cumulative: u32, room: u32, demand: u32) -> u32;
    pub fn nobyaluk_open_capacity(capacity: u32, built: u8, usable: u8) -> u32;
    pub fn nobyaluk_wish(
        kind: u8,
        first: f64,
        second: f64,
        third: f64,
        last: u32,
        entered: u32,
        held: u32,
    ) -> f64;
    pub fn nobyaluk_release(wish: f64, cap: u32) -> u32;
}
