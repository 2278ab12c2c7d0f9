//! How long each phase took, where the environment asks for it.

use std::env;
use std::fs;
use std::time::Instant;

pub struct Phases {
    last: Option<Instant>,
}

impl Phases {
    pub fn start() -> Phases {
        Phases { last: env::var_os("SURVEY_PHASES").map(|_| Instant::now()) }
    }

    /// Tells of the phase that ends now.
    pub fn end(&mut self, name: &str) {
        if let Some(last) = self.last {
            let seconds = last.elapsed().as_secs_f64();
            eprintln!("{name} {seconds:.4} s, peak {} kB", peak());
            self.last = Some(Instant::now());
        }
    }
}

/// The peak of memory so far in kB, as Linux tells it.
fn peak() -> String {
    let status = fs::read_to_string("/proc/self/status").unwrap_or_default();
    let line = status.lines().find_map(|line| line.strip_prefix("VmHWM:"));
    line.map_or("?", |rest| rest.trim().trim_end_matches(" kB")).to_string()
}
