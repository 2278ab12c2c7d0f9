//! Classes of aliases.

use crate::element::{Relation, Topology};
use crate::merge::Network;

pub struct Classes {
    /// The first port of the class of each port; other elements are alone.
    pub first: Vec<u32>,
    pub count: usize,
}

impl Classes {
    pub fn new(topology: &Topology, network: &Network) -> Classes {
        let mut first: Vec<u32> = (0..topology.elements.len() as u32).collect();
        let mut count = 0;
        for (number, port) in topology.elements.iter().enumerate().filter(|(_, element)| element.kind.is_port()) {
            count += 1;
            for alias in network.targets(port, Relation::Alias) {
                let (left, right) = (root(&mut first, number as u32), root(&mut first, alias as u32));
                if left != right {
                    first[left.max(right) as usize] = left.min(right);
                    count -= 1;
                }
            }
        }
        // A port leads to a lower one, whose first is known by then.
        for number in 0..first.len() {
            first[number] = first[first[number] as usize];
        }
        Classes { first, count }
    }
}

/// The least known port of the class; the way there is halved.
fn root(first: &mut [u32], mut number: u32) -> u32 {
    while first[number as usize] != number {
        let next = first[first[number as usize] as usize];
        first[number as usize] = next;
        number = next;
    }
    number
}
