//! The straightforward program with three ideas of the engine: the rooms from the check of the releases are kept for the outflows,
//! a share of 1,000 takes no division, and what is on the road and at the ramps is summed during the move.
use crate::straight::{nothing, outflow, part, read, refuse};
use crate::straight::{Ended, Road, Row, State, Study, CELLS, WHOLE};
use nobyaluk::Refusal as Why;

/// Finds the room that each release leaves in its cell; otherwise the refusal and its place.
fn keep_rooms(
    road: &Road,
    state: &State,
    row: &Row,
    rooms: &mut [u32; CELLS],
) -> Result<(), (Why, usize)> {
    for (i, room) in rooms.iter_mut().enumerate().take(road.n) {
        let release = row.release(i);
        if release > state.queue[i] + row.arrivals(i) {
            return Err((Why::ReleaseAboveQueue, i + 1));
        }
        let supply = road.supply(i, state.held[i]);
        if release > supply {
            return Err((Why::ReleaseAboveSupply, i + 1));
        }
        *room = supply - release;
    }
    Ok(())
}

/// Every place's outflow, gate first.
fn write_outflows(road: &Road, state: &State, rooms: &[u32; CELLS], outflows: &mut [u32]) {
    outflows[0] = road.gate_capacity.min(state.gate_queue).min(rooms[0]);
    let last = road.n - 1;
    for i in 0..last {
        let (demand, room) = (road.demand(i, state.held[i]), rooms[i + 1]);
        outflows[i + 1] = match road.share[i] {
            WHOLE => demand.min(room),
            share => outflow(share, state.cumulative[i], demand, room),
        };
    }
    outflows[last + 1] = road.demand(last, state.held[last]);
}

/// Moves every place by its outflow, and adds to the three times.
fn move_on(road: &Road, state: &mut State, row: &Row, outflows: &[u32]) {
    state.gate_queue = state.gate_queue + row.gate_arrivals() - outflows[0];
    state.gate_cumulative += outflows[0];
    let mut entering = outflows[0];
    for i in 0..road.n {
        let (out, release) = (outflows[i + 1], row.release(i));
        let before = state.cumulative[i];
        state.cumulative[i] = before + out;
        state.held[i] = state.held[i] + entering + release - out;
        state.queue[i] = state.queue[i] + row.arrivals(i) - release;
        state.road_time += u64::from(state.held[i]);
        state.ramp_time += u64::from(state.queue[i]);
        entering = match road.share[i] {
            WHOLE => out,
            share => part(share, before + out) - part(share, before),
        };
    }
    state.done += 1;
    state.gate_time += u64::from(state.gate_queue);
}

/// Runs a record and writes its outflows, one row of n + 1 numbers per step.
pub fn run(record: &[u8], list: &mut [u32]) -> Ended {
    let Study {
        road,
        mut state,
        rows,
    } = match read(record) {
        Ok(study) => study,
        Err(refusal) => return nothing(refusal),
    };
    let (width, places) = (4 + 8 * road.n, road.n + 1);
    if list.len() < rows.len() / width * places {
        return nothing(refuse(Why::ListLength, 0, 0));
    }
    let mut rooms = [0; CELLS];
    let mut refusal = None;
    for (row, outflows) in rows.chunks_exact(width).zip(list.chunks_exact_mut(places)) {
        let row = Row(row);
        if let Err((why, place)) = keep_rooms(&road, &state, &row, &mut rooms) {
            refusal = Some(refuse(why, state.done, place));
            break;
        }
        write_outflows(&road, &state, &rooms, outflows);
        move_on(&road, &mut state, &row, outflows);
    }
    Ended {
        refusal,
        road,
        state,
    }
}
