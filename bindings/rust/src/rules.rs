//! Calls that are never refused: what a state holds, and the rules of one place, for any numbers.
//!
//! Counts and flows are in parts, thousandths of a vehicle; times in part-steps; speeds, waves and shares in thousandths.
use crate::raw::call;
use crate::types::{Law, Road, State, Weights};

/// The linked library's [`VERSION`](crate::VERSION).
pub fn version() -> u32 {
    call!(nobyaluk_version())
}

/// What is present in any road and state, in parts: the gate's queue, all held counts and all ramp queues together.
///
/// ```
/// use nobyaluk::{at_ramps, exits, on_road, present, read, run, total, vehicle_seconds};
/// let record = std::fs::read("../../examples/printed-run.rec")?;
/// let start = read(&record)?;
/// let (road, state) = (start.road, start.state);
/// assert_eq!((on_road(road, state), at_ramps(road, state)), (6_000, 1_500));
/// assert_eq!(present(road, state), u64::from(state.gate_queue) + 6_000 + 1_500);
/// let end = run(&record, &[])?.ended;
/// assert_eq!(exits(road, end.state), 3_701);
/// assert_eq!(total(end.state), 33_098);
/// assert_eq!(vehicle_seconds(20, end.state), 661); // 33,098 part-steps of 20 seconds
/// # Ok::<(), Box<dyn std::error::Error>>(())
/// ```
pub fn present(road: Road, state: State) -> u64 {
    call!(nobyaluk_present(road, state))
}

/// What is present on the road, in parts: all held counts.
pub fn on_road(road: Road, state: State) -> u64 {
    call!(nobyaluk_on_road(road, state))
}

/// What is present at the ramps, in parts: all ramp queues.
pub fn at_ramps(road: Road, state: State) -> u64 {
    call!(nobyaluk_at_ramps(road, state))
}

/// What is present in any road and state, each place and ramp queue times its weight.
pub fn weighted(road: Road, state: State, weights: Weights) -> u64 {
    call!(nobyaluk_weighted(road, state, weights))
}

/// What has left by off-ramps and the road's end, in parts.
pub fn exits(road: Road, state: State) -> u64 {
    call!(nobyaluk_exits(road, state))
}

/// A state's total time spent, in part-steps: gate, road and ramp time together; the greatest 64-bit number if the sum exceeds it.
pub fn total(state: State) -> u64 {
    call!(nobyaluk_total(state))
}

/// A state's total in vehicle-seconds, with these seconds per step, rounded down; the greatest 64-bit number if the total
/// exceeds it.
pub fn vehicle_seconds(seconds: u16, state: State) -> u64 {
    call!(nobyaluk_vehicle_seconds(seconds, state))
}

/// What a cell can send in a step, in parts; its speed in thousandths of a cell a step, its capacity in parts a step.
pub fn demand(speed: u16, capacity: u32, held: u32) -> u32 {
    call!(nobyaluk_demand(speed, capacity, held))
}

/// What the gate can send in a step, in parts.
pub fn gate_demand(capacity: u32, queue: u32) -> u32 {
    call!(nobyaluk_gate_demand(capacity, queue))
}

/// What a cell can take in a step, in parts; its wave in thousandths of a cell a step, its jam count in parts.
pub fn supply(wave: u16, capacity: u32, jam: u32, held: u32) -> u32 {
    call!(nobyaluk_supply(wave, capacity, jam, held))
}

/// What a release leaves of a cell's supply for traffic from upstream, in parts: 0 if it is above the supply.
pub fn room(supply: u32, release: u32) -> u32 {
    call!(nobyaluk_room(supply, release))
}

/// How much of a place's cumulative outflow has gone on, in parts; the share in thousandths.
pub fn onward(share: u16, cumulative: u32) -> u64 {
    call!(nobyaluk_onward(share, cumulative))
}

/// How much of an outflow enters the next cell, in parts: the growth of the onward total.
pub fn entering(share: u16, cumulative: u32, outflow: u32) -> u64 {
    call!(nobyaluk_entering(share, cumulative, outflow))
}

/// The greatest outflow within the demand whose onward part fits the room, in parts, by one division.
///
/// ```
/// use nobyaluk::{demand, entering, outflow, outflow_by_halves, room, supply};
/// // step 1 of the printed run, from cell 1, of which 934 have left, into cell 2
/// let (demand, room) = (demand(500, 2_000, 2_566), room(supply(250, 1_000, 8_000, 4_000), 300));
/// let sent = outflow(750, 934, room, demand);
/// assert_eq!((demand, room, sent), (1_283, 700, 933));
/// assert_eq!(outflow_by_halves(750, 934, room, demand), sent);
/// assert_eq!((entering(750, 934, sent), entering(750, 934, sent + 1)), (700, 701));
/// ```
pub fn outflow(share: u16, cumulative: u32, room: u32, demand: u32) -> u32 {
    call!(nobyaluk_outflow(share, cumulative, room, demand))
}

/// The same outflow, narrowed down by halves between 0 and the demand.
pub fn outflow_by_halves(share: u16, cumulative: u32, room: u32, demand: u32) -> u32 {
    call!(nobyaluk_outflow_by_halves(share, cumulative, room, demand))
}

/// What the open lanes leave of a capacity, in parts a step; each set bit is a lane.
pub fn open_capacity(capacity: u32, built: u8, usable: u8) -> u32 {
    call!(nobyaluk_open_capacity(capacity, built, usable))
}

/// What a law wishes to release, in parts, given the last step's release, its entry from upstream and what the cell holds.
pub fn wish(law: Law, last: u32, entered: u32, held: u32) -> f64 {
    let (kind, numbers) = law.flat();
    wish_of_kind(kind, numbers, last, entered, held)
}

/// The same by the law's kind and its three numbers, as [`lent::fill_kinds`](crate::lent::fill_kinds) takes them.
pub fn wish_of_kind(kind: u8, numbers: [f64; 3], last: u32, entered: u32, held: u32) -> f64 {
    let [first, second, third] = numbers;
    call!(nobyaluk_wish(
        kind, first, second, third, last, entered, held
    ))
}

/// The greatest whole number of parts up to the cap that is not above a wish; 0 for a wish below 0 or not a number.
pub fn release(wish: f64, cap: u32) -> u32 {
    call!(nobyaluk_release(wish, cap))
}
