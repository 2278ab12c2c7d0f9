//! Sets of labels.

use crate::classes::Classes;
use crate::element::Topology;

/// Ranges from a least to a greatest label that rise, with a number between each two.
#[derive(Clone)]
pub struct LabelSet(Box<[(u32, u32)]>);

impl LabelSet {
    pub fn single(label: u32) -> LabelSet {
        LabelSet(Box::new([(label, label)]))
    }

    pub fn of_group_text(text: &str) -> Option<LabelSet> {
        let mut items = text.split(',').map(range_of).collect::<Option<Vec<_>>>()?;
        items.sort_unstable();
        let mut ranges: Vec<(u32, u32)> = Vec::with_capacity(items.len());
        for (low, high) in items {
            match ranges.last_mut() {
                Some(last) if low <= last.1.saturating_add(1) => last.1 = last.1.max(high),
                _ => ranges.push((low, high)),
            }
        }
        Some(LabelSet(ranges.into_boxed_slice()))
    }

    /// The labels of both.
    fn meet(&self, other: &LabelSet) -> LabelSet {
        let (mut left, mut right) = (self.0.iter().peekable(), other.0.iter().peekable());
        let mut ranges = Vec::new();
        while let (Some(&&(low, high)), Some(&&(other_low, other_high))) = (left.peek(), right.peek()) {
            let (least, greatest) = (low.max(other_low), high.min(other_high));
            if least <= greatest {
                ranges.push((least, greatest));
            }
            if high < other_high {
                left.next();
            } else {
                right.next();
            }
        }
        LabelSet(ranges.into_boxed_slice())
    }
}

fn label_of(text: &str) -> Option<u32> {
    let digits = text.bytes().all(|byte| byte.is_ascii_digit());
    if !digits || (text.len() > 1 && text.starts_with('0')) {
        return None;
    }
    text.parse().ok()
}

fn range_of(item: &str) -> Option<(u32, u32)> {
    let (low, high) = item.split_once('-').unwrap_or((item, item));
    let (low, high) = (label_of(low)?, label_of(high)?);
    (low <= high).then_some((low, high))
}

/// The labels of all of these, by halves, so that the cost stays near linear in their sizes.
fn meet_all(sets: &[&LabelSet]) -> Option<LabelSet> {
    match sets {
        [] => None,
        [set] => Some((*set).clone()),
        _ => {
            let (left, right) = sets.split_at(sets.len() / 2);
            Some(meet_all(left)?.meet(&meet_all(right)?))
        }
    }
}

/// For each class of several labelled ports its first port, and the labels of all.
pub fn labels_of_classes(topology: &Topology, classes: &Classes) -> Vec<(u32, LabelSet)> {
    let mut labelled: Vec<(u32, &LabelSet)> = Vec::new();
    for (number, element) in topology.elements.iter().enumerate() {
        if let Some(labels) = element.labels.as_deref().filter(|_| element.kind.is_port()) {
            labelled.push((classes.first[number], &labels.set));
        }
    }
    labelled.sort_by_key(|&(first, _)| first);
    let several = labelled.chunk_by(|left, right| left.0 == right.0).filter(|class| class.len() > 1);
    several.filter_map(|class| Some((class[0].0, meet_all(&class.iter().map(|&(_, set)| set).collect::<Vec<_>>())?))).collect()
}
