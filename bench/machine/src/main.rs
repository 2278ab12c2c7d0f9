//! Cheapest nested walks of a pushdown machine, in plain Rust: a yardstick for the proved search.
//!
//! usage: machine_base chain STATES | roots ROOTS SIZE | shared ROOTS SIZE | nest LEVELS | ways WAYS

mod machine;
mod search;
mod shapes;
mod weight;

use machine::Index;
use search::Settled;
use shapes::Shape;
use std::env;
use std::process::ExitCode;
use weight::Weight;

/// The most hops that are unfolded.
const HOP_LIMIT: u64 = 16_777_216;

fn print(shape: &Shape) {
    let machine = &shape.machine;
    println!("states {} frames {} steps {}", machine.states, machine.frames, machine.steps.len());
    let index = Index::new(machine);
    let settled = Settled::search(machine, &index, &shape.starts);
    let mut past = 0_u64;
    let (mut costs, mut hop_total) = (0_u64, 0_u64);
    for pot in settled.potentials() {
        match pot.weight {
            Weight::Known { cost, hops } => {
                costs = costs.wrapping_add(cost);
                hop_total = hop_total.wrapping_add(hops);
            }
            Weight::Past => past += 1,
        }
    }
    println!("pairs {} past {past} costs {costs} hops {hop_total}", settled.potentials().len());
    let Some(best) = settled.best(&shape.targets) else {
        println!("best none");
        return;
    };
    match settled.weight(best) {
        Weight::Past => println!("best past"),
        Weight::Known { cost, hops } if hops > HOP_LIMIT => println!("best {cost} {hops} long"),
        Weight::Known { cost, hops } => {
            let steps = settled.unfold(best, hops);
            let sum = steps.iter().fold(0_u64, |sum, &step| sum.wrapping_mul(31).wrapping_add(step));
            println!("best {cost} {hops} unfolded {} {sum}", steps.len());
        }
    }
}

fn main() -> ExitCode {
    let words: Vec<String> = env::args().skip(1).collect();
    let sizes: Option<Vec<u64>> = words.iter().skip(1).map(|word| word.parse().ok()).collect();
    let shape = match (words.first().map(String::as_str), sizes.as_deref()) {
        (Some("chain"), Some(&[states])) => shapes::chain(states),
        (Some("roots"), Some(&[roots, size])) => shapes::roots(roots, size),
        (Some("shared"), Some(&[roots, size])) => shapes::shared(roots, size),
        (Some("nest"), Some(&[levels])) => shapes::nest(levels),
        (Some("ways"), Some(&[ways])) => shapes::ways(ways),
        _ => {
            eprintln!("usage: machine_base chain STATES | roots ROOTS SIZE | shared ROOTS SIZE | nest LEVELS | ways WAYS");
            return ExitCode::from(2);
        }
    };
    print(&shape);
    ExitCode::SUCCESS
}
