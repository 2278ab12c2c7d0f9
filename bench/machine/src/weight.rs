/// By cost, then by hops; at most 2^40 hops are counted, and a cost of 2^64 or more is past.
#[derive(Clone, Copy, PartialEq, Eq, PartialOrd, Ord, Debug)]
pub enum Weight {
    Known { cost: u64, hops: u64 },
    Past,
}

const MOST_HOPS: u64 = 1 << 40;

impl Weight {
    pub const ZERO: Weight = Weight::Known { cost: 0, hops: 0 };

    pub fn plus(self, other: Weight) -> Weight {
        match (self, other) {
            (Weight::Known { cost: a, hops: h }, Weight::Known { cost: b, hops: k }) => match a.checked_add(b) {
                Some(cost) => Weight::Known { cost, hops: (h + k).min(MOST_HOPS) },
                None => Weight::Past,
            },
            _ => Weight::Past,
        }
    }

    /// With one more step.
    pub fn stepped(self, cost: u64) -> Weight {
        self.plus(Weight::Known { cost, hops: 1 })
    }
}
