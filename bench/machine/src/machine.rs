use std::collections::HashMap;

#[derive(Clone, Copy, PartialEq, Eq, Debug)]
pub enum Kind {
    Flat,
    Push,
    Pop,
}

#[derive(Clone, Copy, Debug)]
pub struct Step {
    pub kind: Kind,
    pub from: u64,
    pub to: u64,
    pub frame: u64,
    pub cost: u64,
}

pub struct Machine {
    pub states: u64,
    pub frames: u64,
    pub steps: Vec<Step>,
}

impl Machine {
    pub fn new(states: u64, frames: u64) -> Machine {
        Machine { states, frames, steps: Vec::new() }
    }

    pub fn add(&mut self, kind: Kind, from: u64, to: u64, frame: u64, cost: u64) {
        assert!(from < self.states && to < self.states && (kind == Kind::Flat || frame < self.frames));
        self.steps.push(Step { kind, from, to, frame, cost });
    }
}

/// The steps of a machine by state, and its pops by state and frame.
pub struct Index {
    flats: Vec<Vec<u64>>,
    pushes: Vec<Vec<u64>>,
    pops: HashMap<(u64, u64), Vec<u64>>,
}

impl Index {
    pub fn new(machine: &Machine) -> Index {
        let states = machine.states as usize;
        let mut index = Index { flats: vec![Vec::new(); states], pushes: vec![Vec::new(); states], pops: HashMap::new() };
        for (number, step) in machine.steps.iter().enumerate() {
            let row = match step.kind {
                Kind::Flat => &mut index.flats[step.from as usize],
                Kind::Push => &mut index.pushes[step.from as usize],
                Kind::Pop => index.pops.entry((step.from, step.frame)).or_default(),
            };
            row.push(number as u64);
        }
        index
    }

    pub fn flats(&self, state: u64) -> &[u64] {
        &self.flats[state as usize]
    }

    pub fn pushes(&self, state: u64) -> &[u64] {
        &self.pushes[state as usize]
    }

    pub fn pops(&self, state: u64, frame: u64) -> &[u64] {
        self.pops.get(&(state, frame)).map_or(&[], Vec::as_slice)
    }
}
