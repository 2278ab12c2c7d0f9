//! The counts of topology files, in plain Rust: a yardstick for `finder survey`.
//!
//! usage: survey_base FILE..
//!
//! For accepted files it prints what `finder survey` prints, and for others `fault` alone. Where SURVEY_PHASES is set, it tells
//! on standard error the wall seconds of each phase and the peak of memory at its end.
//! Built by `cargo build --release`; README.md says how where cargo has no network.

mod classes;
mod element;
mod labels;
mod layers;
mod merge;
mod parse;
mod phases;
mod read;
mod value;

use classes::Classes;
use element::{Kind, Topology};
use merge::Network;
use phases::Phases;
use std::env;
use std::ffi::OsString;
use std::fmt::Write as _;
use std::hint::black_box;
use std::io::{Write as _, stdout};
use std::process::ExitCode;

/// The files are no accepted topology.
#[derive(Debug)]
pub struct Fault;

const FAULT: u8 = 3;

fn counts(topology: &Topology, network: &Network, classes: &Classes) -> String {
    let count = |wanted: fn(Kind) -> bool| topology.elements.iter().filter(|element| wanted(element.kind)).count();
    let mut text = String::from("survey\n");
    for domain in &topology.domains {
        let _ = writeln!(text, "domain {} {}", domain.id, domain.elements.len());
    }
    let _ = writeln!(text, "ports {}", count(Kind::is_port));
    let _ = writeln!(text, "classes {}", classes.count);
    let _ = writeln!(text, "links {}", count(Kind::is_link));
    let _ = writeln!(text, "services {}", count(Kind::is_service));
    let _ = writeln!(text, "open-references {}", network.open_references);
    text
}

fn survey(files: &[Vec<u8>], phases: &mut Phases) -> Result<String, Fault> {
    let mut topology = Topology::default();
    for file in files {
        parse::add_file(&mut topology, file)?;
    }
    phases.end("parse");
    let network = merge::merge(&topology)?;
    let classes = Classes::new(&topology, &network);
    // `survey` does not ask for the labels of the classes. A network has them, so they are made.
    black_box(labels::labels_of_classes(&topology, &classes));
    phases.end("merge");
    layers::check(&topology, &network, &classes)?;
    let text = counts(&topology, &network, &classes);
    phases.end("check");
    Ok(text)
}

fn print(text: &str, status: u8) -> ExitCode {
    match stdout().write_all(text.as_bytes()) {
        Ok(()) => ExitCode::from(status),
        Err(_) => ExitCode::from(6),
    }
}

fn main() -> ExitCode {
    let names: Vec<OsString> = env::args_os().skip(1).collect();
    if names.is_empty() || names.len() > 64 {
        eprintln!("usage: survey_base FILE..");
        return ExitCode::from(2);
    }
    let mut phases = Phases::start();
    let files = match read::read_all(&names) {
        Ok(files) => files,
        Err(refusal) => return print(&refusal.line(), refusal.status()),
    };
    phases.end("read");
    match survey(&files, &mut phases) {
        Ok(text) => print(&text, 0),
        Err(Fault) => print("fault\n", FAULT),
    }
}
