//! All files become one network, by numbers.

use crate::Fault;
use crate::element::{Element, Relation, Topology};
use std::collections::{HashMap, HashSet};

/// The number of an id that no element has.
const OPEN: u32 = u32::MAX;

/// What the references of a topology name. Elements are numbered from 0, in the order of files and elements.
pub struct Network {
    targets: Vec<u32>,
    pub open_references: usize,
}

impl Network {
    /// The elements that this relation of an element names.
    pub fn targets(&self, element: &Element, relation: Relation) -> impl Iterator<Item = usize> {
        let targets = self.targets[element.span(relation)].iter();
        targets.filter(|&&target| target != OPEN).map(|&target| target as usize)
    }
}

pub fn merge(topology: &Topology) -> Result<Network, Fault> {
    let mut names = HashSet::new();
    if !topology.domains.iter().all(|domain| names.insert(domain.id.as_ref())) {
        return Err(Fault);
    }
    let targets = targets(topology)?;
    let open_references = check_references(topology, &targets)?;
    Ok(Network { targets, open_references })
}

fn targets(topology: &Topology) -> Result<Vec<u32>, Fault> {
    let mut numbers: HashMap<&str, u32> = HashMap::with_capacity(topology.elements.len());
    for (number, element) in (0..OPEN).zip(&topology.elements) {
        if numbers.insert(&element.id, number).is_some() {
            return Err(Fault);
        }
    }
    let number_of = |id: &str| numbers.get(id).copied().unwrap_or(OPEN);
    Ok(topology.references.iter().map(|id| number_of(id)).collect())
}

/// Each target is of a kind that its relation may name; the number of open references.
fn check_references(topology: &Topology, targets: &[u32]) -> Result<usize, Fault> {
    let mut count = 0;
    let mut open: Vec<&str> = Vec::new();
    for element in &topology.elements {
        for &relation in element.kind.relations() {
            open.clear();
            for place in element.span(relation) {
                match targets[place] {
                    OPEN => open.push(&topology.references[place]),
                    target if element.kind.may_name(relation, topology.elements[target as usize].kind) => {}
                    _ => return Err(Fault),
                }
            }
            open.sort_unstable();
            open.dedup();
            count += open.len();
        }
    }
    Ok(count)
}
