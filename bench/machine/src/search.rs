//! Pairs of a root and a state are settled from one queue, the least weight first; a root is opened by the first push into
//! its state, and pairs that wait at a push are combined with the pairs that settle under the root that it opens.

use crate::machine::{Index, Machine};
use crate::weight::Weight;
use std::cmp::Reverse;
use std::collections::{BinaryHeap, HashMap};

/// Where the segments of a pair begin.
#[derive(Clone, Copy, PartialEq, Eq, PartialOrd, Ord, Hash, Debug)]
pub enum Root {
    Request,
    Entry(u64),
}

/// How a segment is made of those of other pairs, by place.
#[derive(Clone, Copy)]
enum Form {
    Root,
    Flat { prev: usize, step: u64 },
    Nest { prev: usize, push: u64, inner: usize, pop: u64 },
}

struct Pair {
    root: Root,
    state: u64,
    weight: Weight,
    form: Form,
}

pub struct Pot {
    pub root: Root,
    pub state: u64,
    pub weight: Weight,
}

/// What is known of an entered state.
#[derive(Default)]
struct Entry {
    /// The settled pairs under it.
    settled: Vec<usize>,
    /// The settled pairs that push into it, with the step.
    waiting: Vec<(usize, u64)>,
}

pub struct Settled {
    pairs: Vec<Pair>,
    places: HashMap<(Root, u64), usize>,
    potentials: Vec<Pot>,
}

struct Search<'m> {
    machine: &'m Machine,
    index: &'m Index,
    pairs: Vec<Pair>,
    places: HashMap<(Root, u64), usize>,
    entries: HashMap<u64, Entry>,
    queue: BinaryHeap<Reverse<(Weight, usize)>>,
}

impl Search<'_> {
    fn offer(&mut self, root: Root, state: u64, weight: Weight, form: Form) {
        let next = self.pairs.len();
        let place = *self.places.entry((root, state)).or_insert(next);
        if place == next {
            self.pairs.push(Pair { root, state, weight, form });
        } else if weight < self.pairs[place].weight {
            self.pairs[place].weight = weight;
            self.pairs[place].form = form;
        } else {
            return;
        }
        self.queue.push(Reverse((weight, place)));
    }

    /// What the pops of the frame make of a pair that waits and an inner pair.
    fn close(&mut self, prev: usize, push: u64, inner: usize) {
        let pushed = self.machine.steps[push as usize];
        let weight = self.pairs[prev].weight.stepped(pushed.cost).plus(self.pairs[inner].weight);
        let root = self.pairs[prev].root;
        for &pop in self.index.pops(self.pairs[inner].state, pushed.frame) {
            let popped = self.machine.steps[pop as usize];
            self.offer(root, popped.to, weight.stepped(popped.cost), Form::Nest { prev, push, inner, pop });
        }
    }

    fn extend(&mut self, place: usize) {
        let Pair { root, state, weight, .. } = self.pairs[place];
        for &step in self.index.flats(state) {
            let taken = self.machine.steps[step as usize];
            self.offer(root, taken.to, weight.stepped(taken.cost), Form::Flat { prev: place, step });
        }
    }

    /// Ends the nests of which the pair is the inner part.
    fn fill(&mut self, place: usize) {
        let Root::Entry(entry) = self.pairs[place].root else {
            return;
        };
        let known = self.entries.entry(entry).or_default();
        known.settled.push(place);
        for number in 0..known.waiting.len() {
            let (prev, push) = self.entries[&entry].waiting[number];
            self.close(prev, push, place);
        }
    }

    /// Opens the roots that the pair pushes into, and begins nests there.
    fn open(&mut self, place: usize) {
        let state = self.pairs[place].state;
        for &push in self.index.pushes(state) {
            let entry = self.machine.steps[push as usize].to;
            if !self.entries.contains_key(&entry) {
                self.offer(Root::Entry(entry), entry, Weight::ZERO, Form::Root);
            }
            let known = self.entries.entry(entry).or_default();
            known.waiting.push((place, push));
            for number in 0..known.settled.len() {
                let inner = self.entries[&entry].settled[number];
                self.close(place, push, inner);
            }
        }
    }
}

impl Settled {
    pub fn search(machine: &Machine, index: &Index, starts: &[u64]) -> Settled {
        let mut search = Search {
            machine,
            index,
            pairs: Vec::new(),
            places: HashMap::new(),
            entries: HashMap::new(),
            queue: BinaryHeap::new(),
        };
        for &start in starts {
            search.offer(Root::Request, start, Weight::ZERO, Form::Root);
        }
        while let Some(Reverse((weight, place))) = search.queue.pop() {
            if weight == search.pairs[place].weight {
                search.extend(place);
                search.fill(place);
                search.open(place);
            }
        }
        let mut potentials: Vec<Pot> =
            search.pairs.iter().map(|pair| Pot { root: pair.root, state: pair.state, weight: pair.weight }).collect();
        potentials.sort_unstable_by_key(|pot| (pot.root, pot.state));
        Settled { pairs: search.pairs, places: search.places, potentials }
    }

    /// The reached pairs with their least weights, by root and state.
    pub fn potentials(&self) -> &[Pot] {
        &self.potentials
    }

    /// A pair of least weight under the request, among the targets.
    pub fn best(&self, targets: &[u64]) -> Option<usize> {
        let places = targets.iter().filter_map(|&target| self.places.get(&(Root::Request, target)));
        places.copied().min_by_key(|&place| self.pairs[place].weight)
    }

    pub fn weight(&self, place: usize) -> Weight {
        self.pairs[place].weight
    }

    /// The steps of the pair, in order.
    pub fn unfold(&self, place: usize, hops: u64) -> Vec<u64> {
        enum Task {
            Walk(usize),
            Step(u64),
        }
        let mut backwards = Vec::with_capacity(hops as usize);
        let mut tasks = vec![Task::Walk(place)];
        while let Some(task) = tasks.pop() {
            match task {
                Task::Step(step) => backwards.push(step),
                Task::Walk(place) => match self.pairs[place].form {
                    Form::Root => (),
                    Form::Flat { prev, step } => {
                        tasks.push(Task::Walk(prev));
                        backwards.push(step);
                    }
                    Form::Nest { prev, push, inner, pop } => {
                        tasks.push(Task::Walk(prev));
                        tasks.push(Task::Step(push));
                        tasks.push(Task::Walk(inner));
                        backwards.push(pop);
                    }
                },
            }
        }
        backwards.reverse();
        backwards
    }
}
