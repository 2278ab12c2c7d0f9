//! The machines that are measured.

use crate::machine::{Kind, Machine};

pub struct Shape {
    pub machine: Machine,
    pub starts: Vec<u64>,
    pub targets: Vec<u64>,
}

/// From each state `s` but one, at cost 1, to `s + 150,001`, in a ring; the one left out would lead back to state 0.
pub fn chain(states: u64) -> Shape {
    let stride = 150_001 % states;
    let mut machine = Machine::new(states, 0);
    for s in 0..states {
        let to = (s + stride) % states;
        if to != 0 {
            machine.add(Kind::Flat, s, to, 0, 1);
        }
    }
    Shape { machine, starts: vec![0], targets: vec![(states - stride) % states] }
}

/// A row of states; each but the last pushes into a row of `size` states of its own, whose last pops back to the next.
pub fn roots(roots: u64, size: u64) -> Shape {
    let rows = roots + 1;
    let mut machine = Machine::new(rows + roots * size, 1);
    for r in 0..roots {
        let first = rows + r * size;
        machine.add(Kind::Push, r, first, 0, 1);
        for place in 1..size {
            machine.add(Kind::Flat, first + place - 1, first + place, 0, 1);
        }
        machine.add(Kind::Pop, first + size - 1, r + 1, 0, 1);
    }
    Shape { machine, starts: vec![0], targets: vec![roots] }
}

/// A row of states; each but the last pushes a frame of its own and enters, by a state of its own, one row of `size`
/// states that all share, whose last pops each frame to the state after the one that pushed it.
pub fn shared(roots: u64, size: u64) -> Shape {
    let entries = roots + 1;
    let hub = entries + roots;
    let mut machine = Machine::new(hub + size, roots);
    for place in 1..size {
        machine.add(Kind::Flat, hub + place - 1, hub + place, 0, 1);
    }
    for r in 0..roots {
        machine.add(Kind::Push, r, entries + r, r, 1);
        machine.add(Kind::Flat, entries + r, hub, 0, 1);
        machine.add(Kind::Pop, hub + size - 1, r + 1, r, 1);
    }
    Shape { machine, starts: vec![0], targets: vec![roots] }
}

/// Levels of three states; each but the lowest goes from its first to its second, and from that to its third, through the
/// level below, so that the walk doubles with each level.
pub fn nest(levels: u64) -> Shape {
    let mut machine = Machine::new(3 * (levels + 1), 2 * levels);
    machine.add(Kind::Flat, 0, 2, 0, 1);
    for level in 1..=levels {
        let (first, below, frame) = (3 * level, 3 * (level - 1), 2 * (level - 1));
        machine.add(Kind::Push, first, below, frame, 0);
        machine.add(Kind::Pop, below + 2, first + 1, frame, 0);
        machine.add(Kind::Push, first + 1, below, frame + 1, 0);
        machine.add(Kind::Pop, below + 2, first + 2, frame + 1, 0);
    }
    Shape { machine, starts: vec![3 * levels], targets: vec![3 * levels + 2] }
}

/// A row of states, each of which pushes one frame into one state, whence pops lead to as many states.
pub fn ways(ways: u64) -> Shape {
    let mut machine = Machine::new(2 * ways + 1, 1);
    for place in 1..ways {
        machine.add(Kind::Flat, place - 1, place, 0, 1);
    }
    for way in 0..ways {
        machine.add(Kind::Push, way, ways, 0, 1);
        machine.add(Kind::Pop, ways, ways + 1 + way, 0, 1);
    }
    Shape { machine, starts: vec![0], targets: vec![2 * ways] }
}
