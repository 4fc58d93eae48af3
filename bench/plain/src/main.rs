//! `plain walk`, `plain live` and `plain check`: what `tiwalk` does, as one would write it in Rust with `serde_json` and no contracts.
//!
//! It is what `bench/bench.py` counts instructions beside, and is built by
//!
//!     apt-get install librust-serde-json-dev      # Debian's sources of serde_json, into /usr/share/cargo/registry
//!     cd bench/plain && cargo build --release --offline
//!
//! Nothing of the repository stands on it.
mod agent;
mod cell;
mod checking;
mod elements;
mod fault;
mod living;
mod machine;
mod names;
mod text;
mod thread;
mod values;
mod walker;
mod walking;

use checking::check;
use fault::Fault;
use living::live;
use std::io::Write;
use std::process::ExitCode;
use walking::walk;

fn main() -> ExitCode {
    let words: Vec<String> = std::env::args_os().skip(1).map(|w| w.to_string_lossy().into_owned()).collect();
    let words: Vec<&str> = words.iter().map(String::as_str).collect();
    let ended = match words.as_slice() {
        [] | ["walk"] => walk().map(|()| true),
        ["live"] => live().map(|()| true),
        ["check"] => check(),
        _ => Err(Fault::Usage),
    };
    let (text, status) = match ended {
        Ok(true) => return ExitCode::from(0),
        Ok(false) => return ExitCode::from(1),
        Err(Fault::Json) => ("json".to_owned(), 2),
        Err(Fault::Shape(n)) => (format!("shape at item {}", n), 2),
        Err(Fault::Name(n)) => (format!("name at item {}", n), 2),
        Err(Fault::Limit(name)) => (format!("limit {}", name), 2),
        Err(Fault::Usage) => ("usage: tiwalk [walk|live|check]".to_owned(), 2),
        Err(Fault::Read) => ("read".to_owned(), 4),
        Err(Fault::Write) => ("write".to_owned(), 4),
    };
    let _ = writeln!(std::io::stderr(), "tiwalk: {}", text);
    ExitCode::from(status)
}
