//! `live`: a document of walks and calls, each of them gone through by a thread of its own, and what comes of it.
use crate::agent::Agent;
use crate::cell::Cell;
use crate::elements::{limits, members, place, read_input, signed};
use crate::fault::{Fault, Res};
use crate::names::{texts, Names};
use crate::text::put_reply;
use crate::values::{Entry, Event, Limits, Reply, Request};
use crate::walker::{Refusal, Walker};
use serde_json::Value;
use std::collections::HashMap;
use std::fmt::Write as _;
use std::io::Write;
use std::sync::Mutex;
use std::thread;

struct Live {
    limits: Limits,
    threads: Vec<String>,
    agents: Vec<String>,
    methods: Vec<String>,
    walks: Vec<Vec<Event>>,
    calls: Vec<Vec<Request>>,
}

/// What a run leaves, by threads and agents.
struct Report {
    replies: Vec<Vec<Reply>>,
    refused: Vec<Vec<Refusal>>,
    /// What `check` would read; that it is legal is taken as it is.
    histories: Vec<Vec<Entry>>,
}

/// The word of an item, and what stands after it.
fn words(value: &Value, item: usize) -> Res<(&str, &[Value])> {
    match value.as_array().map(Vec::as_slice) {
        Some([Value::String(word), rest @ ..]) => Ok((word, rest)),
        _ => Err(Fault::Shape(item)),
    }
}

fn listed(names: &Names, value: &Value, item: usize) -> Res<Vec<u32>> {
    let array = value.as_array().ok_or(Fault::Shape(item))?;
    if array.len() > 1024 || array.iter().any(|v| !v.is_string() && place(v, item).is_err()) {
        return Err(Fault::Shape(item));
    }
    array.iter().map(|v| names.thread(v, item)).collect()
}

fn request(names: &Names, agent: u32, value: &Value, item: usize) -> Res<Request> {
    let (word, rest) = words(value, item)?;
    Ok(match (word, rest) {
        ("stop" | "read" | "go", _) => return Err(Fault::Shape(item)),
        ("suspend_list", [list]) => Request::SuspendList(listed(names, list, item)?),
        ("resume_list", [list]) => Request::ResumeList(listed(names, list, item)?),
        ("all", [most]) => Request::AllStacks(signed(most, item)?),
        ("list", [list, most]) => {
            let threads = listed(names, list, item)?;
            Request::ListStacks(threads, signed(most, item)?)
        }
        _ => Request::One(names.question(agent, word, rest, item)?),
    })
}

/// The arrays in an array of so many.
fn arrays(value: &Value, count: usize) -> Res<Vec<&Vec<Value>>> {
    let array = value.as_array().filter(|array| array.len() == count).ok_or(Fault::Shape(0))?;
    array.iter().map(|one| one.as_array().ok_or(Fault::Shape(0))).collect()
}

fn are_too_many(lists: &[&Vec<Value>]) -> bool {
    lists.iter().map(|list| list.len()).sum::<usize>() > 65536
}

fn read_live() -> Res<Live> {
    let tree: Value = {
        let input = read_input()?;
        serde_json::from_slice(&input).map_err(|_| Fault::Json)?
    };
    let map = members(&tree, &["limits", "threads", "agents", "methods", "walks", "calls"])?;
    let limits = limits(&map["limits"])?;
    let mut subjects = HashMap::new();
    let threads = texts(&map["threads"], 1, 64, "threads", &mut subjects)?;
    let agents = texts(&map["agents"], 1, 32, "agents", &mut subjects)?;
    for (n, a) in agents.iter().enumerate() {
        subjects.insert(a, 1000 + n as u32);
    }
    let mut numbers = HashMap::new();
    let methods = texts(&map["methods"], 0, 65536, "methods", &mut numbers)?;
    let names = Names { threads: threads.len(), subjects, methods: numbers };
    let of_threads = arrays(&map["walks"], threads.len())?;
    let of_agents = arrays(&map["calls"], agents.len())?;
    if are_too_many(&of_threads) {
        return Err(Fault::Limit("walks"));
    }
    if are_too_many(&of_agents) {
        return Err(Fault::Limit("calls_list"));
    }
    let mut items = 1..;
    let mut walks = Vec::with_capacity(threads.len());
    for (n, list) in of_threads.into_iter().enumerate() {
        let operation = |(value, item)| {
            let (word, rest) = words(value, item)?;
            names.operation(n as u32, word, rest, item)
        };
        walks.push(list.iter().zip(items.by_ref()).map(operation).collect::<Res<_>>()?);
    }
    let mut calls = Vec::with_capacity(agents.len());
    for (n, list) in of_agents.into_iter().enumerate() {
        let call = |(value, item)| request(&names, n as u32, value, item);
        calls.push(list.iter().zip(items.by_ref()).map(call).collect::<Res<_>>()?);
    }
    let owned = |list: Vec<&str>| list.into_iter().map(str::to_owned).collect();
    Ok(Live { limits, threads: owned(threads), agents: owned(agents), methods: owned(methods), walks, calls })
}

/// Goes through each list by a thread of its own.
fn run(live: &Live) -> Report {
    let limits = live.limits;
    let cells: Vec<Cell> = live.threads.iter().map(|_| Cell::new(live.agents.len())).collect();
    let turn = Mutex::new(());
    let (refused, replies) = thread::scope(|scope| {
        let mut walkers = Vec::with_capacity(cells.len());
        for (walk, cell) in live.walks.iter().zip(&cells) {
            let walker = Walker::new(cell, limits);
            walkers.push(scope.spawn(|| walker.walk(walk)));
        }
        let mut agents = Vec::with_capacity(live.agents.len());
        for (number, calls) in live.calls.iter().enumerate() {
            let agent = Agent::new(number as u32, limits, &cells, &turn);
            agents.push(scope.spawn(|| agent.call_all(calls)));
        }
        let refused = walkers.into_iter().map(|walker| walker.join().unwrap()).collect();
        let replies = agents.into_iter().map(|agent| agent.join().unwrap()).collect();
        (refused, replies)
    });
    Report { replies, refused, histories: cells.into_iter().map(Cell::into_history).collect() }
}

pub fn live() -> Res<()> {
    let live = read_live()?;
    let report = run(&live);
    let threads: Vec<&str> = live.threads.iter().map(String::as_str).collect();
    let methods: Vec<&str> = live.methods.iter().map(String::as_str).collect();
    let mut out = std::io::stdout().lock();
    let mut text = String::with_capacity(1 << 17);
    for (agent, replies) in live.agents.iter().zip(&report.replies) {
        for (number, reply) in replies.iter().enumerate() {
            put_reply(&mut text, &threads, &methods, agent, number, reply);
            if text.len() >= 65536 {
                out.write_all(text.as_bytes()).map_err(|_| Fault::Write)?;
                text.clear();
            }
        }
    }
    for (thread, refused) in threads.iter().zip(&report.refused) {
        for (number, error) in refused {
            let _ = writeln!(text, "{} {} error {}", thread, number, error);
        }
        let _ = writeln!(text, "{} legal", thread);
    }
    drop(report.histories);
    out.write_all(text.as_bytes()).map_err(|_| Fault::Write)
}
