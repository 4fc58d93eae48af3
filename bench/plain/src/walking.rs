//! `walk`: a document of events, and a line for each.
use crate::elements::{limits, members, read_input};
use crate::fault::{Fault, Res};
use crate::machine::{Env, Machine};
use crate::names::{texts, Names};
use crate::text::put_line;
use crate::thread::Thread;
use crate::values::{Event, Outcome};
use serde_json::Value;
use std::collections::HashMap;
use std::io::Write;

fn event(names: &Names, value: &Value, item: usize) -> Res<Event> {
    let array = value.as_array().ok_or(Fault::Shape(item))?;
    let [Value::String(subject), Value::String(word), rest @ ..] = array.as_slice() else {
        return Err(Fault::Shape(item));
    };
    let n = *names.subjects.get(subject.as_str()).ok_or(Fault::Name(item))?;
    if n < 1000 {
        names.operation(n, word, rest, item)
    } else {
        names.question(n - 1000, word, rest, item)
    }
}

pub fn walk() -> Res<()> {
    let (methods, outcomes);
    {
        let tree: Value = {
            let input = read_input()?;
            serde_json::from_slice(&input).map_err(|_| Fault::Json)?
        };
        let map = members(&tree, &["limits", "threads", "agents", "methods", "events"])?;
        let limits = limits(&map["limits"])?;
        let mut subjects = HashMap::new();
        let threads = texts(&map["threads"], 1, 64, "threads", &mut subjects)?.len();
        let agents = texts(&map["agents"], 1, 32, "agents", &mut subjects)?;
        for (n, a) in agents.iter().enumerate() {
            subjects.insert(a, 1000 + n as u32);
        }
        let mut numbers = HashMap::new();
        let list = texts(&map["methods"], 0, 65536, "methods", &mut numbers)?;
        let names = Names { threads, subjects, methods: numbers };
        let array = map["events"].as_array().ok_or(Fault::Shape(0))?;
        if array.len() > 65536 {
            return Err(Fault::Limit("events"));
        }
        let mut events = Vec::with_capacity(array.len());
        for (n, item) in array.iter().enumerate() {
            events.push(event(&names, item, n + 1)?);
        }
        let envs = agents.len();
        methods = list.into_iter().map(str::to_owned).collect::<Vec<String>>();
        let threads = names.threads;
        drop(names);
        drop(tree);
        let mut machine = Machine {
            limits,
            threads: (0..threads).map(|_| Thread::new(envs)).collect(),
            envs: (0..envs).map(|_| Env::new(threads)).collect(),
        };
        let mut all: Vec<Outcome> = Vec::with_capacity(events.len());
        for (at, event) in events.iter().enumerate() {
            let outcome = machine.event(*event, at, &mut all).unwrap_or_else(Outcome::Refused);
            all.push(outcome);
        }
        outcomes = all;
    }
    let methods: Vec<&str> = methods.iter().map(String::as_str).collect();
    let mut out = std::io::stdout().lock();
    let mut text = String::with_capacity(1 << 17);
    for (n, outcome) in outcomes.iter().enumerate() {
        put_line(&mut text, &methods, n, outcome);
        if text.len() >= 65536 {
            out.write_all(text.as_bytes()).map_err(|_| Fault::Write)?;
            text.clear();
        }
    }
    out.write_all(text.as_bytes()).map_err(|_| Fault::Write)
}
