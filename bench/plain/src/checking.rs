//! `check`: a document of entries, and whether a thread can have done so.
use crate::elements::{block, limits, members, place, read_input, signed};
use crate::fault::{Fault, Res};
use crate::thread::{waits, Thread};
use crate::values::{Call, Entry, Limits, Mode, Safe, Step};
use serde_json::Value;
use std::io::Write;

fn entry(value: &Value, item: usize, format: u64) -> Res<Entry> {
    let array = value.as_array().ok_or(Fault::Shape(item))?;
    let [Value::String(word), rest @ ..] = array.as_slice() else {
        return Err(Fault::Shape(item));
    };
    Ok(match (word.as_str(), rest) {
        ("start", []) => Entry::Start,
        ("back", []) => Entry::Back,
        ("end", []) => Entry::End,
        ("leave", []) => Entry::Own(Step::Leave),
        ("enter", [m]) => Entry::Own(Step::Enter(place(m, item)?)),
        ("enter_native", [m]) => Entry::Own(Step::EnterNative(place(m, item)?)),
        ("at", [p]) => Entry::Own(Step::At(place(p, item)?)),
        ("hand", [kind]) => Entry::Hand(match kind.as_str().ok_or(Fault::Shape(item))? {
            "native" => Safe::Native,
            "poll" => Safe::Poll,
            _ => Safe::Blocked(block(kind, item)?),
        }),
        ("asked", [e, n, Value::String(call), args @ ..]) => {
            let (e, n) = (place(e, item)?, place(n, item)?);
            let call = match (call.as_str(), args) {
                ("state", []) => Call::State,
                ("count", []) => Call::Count,
                ("suspend", []) => Call::Suspend,
                ("resume", []) => Call::Resume,
                ("get", []) => Call::Get,
                ("set", [w]) => Call::Set(w.as_u64().ok_or(Fault::Shape(item))?),
                ("trace", [s, m]) => Call::Trace(signed(s, item)?, signed(m, item)?),
                ("location", [d]) => Call::Location(signed(d, item)?),
                ("pop", []) if format == 2 => Call::Pop,
                _ => return Err(Fault::Shape(item)),
            };
            Entry::Asked(e, n, call)
        }
        ("stop", [e]) => Entry::Stop(place(e, item)?),
        ("go", [e]) => Entry::Go(place(e, item)?),
        ("read", [e, m]) => {
            let e = place(e, item)?;
            Entry::ReadUnder(e, signed(m, item)?)
        }
        _ => return Err(Fault::Shape(item)),
    })
}

fn fits(t: &mut Thread, limits: &Limits, spent: &mut [(u32, u32)], entry: &Entry) -> bool {
    match *entry {
        Entry::Start => {
            if t.mode != Mode::New || t.stopper.is_some() {
                return false;
            }
            t.mode = Mode::Running;
        }
        Entry::Own(step) => return t.step(step, limits).is_ok(),
        Entry::Hand(safe) => {
            if t.hand_refusal(safe, limits).is_some() || (safe == Safe::Poll && !t.armed()) {
                return false;
            }
            if safe != Safe::Poll {
                t.own += 2;
            }
            t.mode = Mode::Safe(safe);
            while let Some((env, call, _)) = t.waiting.pop_front() {
                t.answer(env, call);
            }
        }
        Entry::Back => {
            if !matches!(t.mode, Mode::Safe(_)) || t.barred() {
                return false;
            }
            t.mode = Mode::Running;
        }
        Entry::End => {
            if t.mode != Mode::Running {
                return false;
            }
            t.frames.clear();
            t.mode = Mode::Ended;
            t.waiting.clear();
        }
        Entry::Asked(e, n, call) => {
            let Some((asked, calls)) = spent.get_mut(e as usize) else {
                return false;
            };
            if *calls >= limits.calls || *asked != n || !call.is_well_formed() {
                return false;
            }
            *asked += 1;
            *calls += 1;
            if waits(call) && t.mode == Mode::Running {
                t.waiting.push_back((e, call, 0));
            } else if matches!(call, Call::Suspend | Call::Resume | Call::Pop | Call::Set(_)) {
                t.answer(e, call);
            }
        }
        Entry::Stop(e) => {
            let Some((_, calls)) = spent.get_mut(e as usize) else {
                return false;
            };
            if *calls >= limits.calls || t.stopper.is_some() {
                return false;
            }
            *calls += 1;
            t.stopper = Some(e);
        }
        Entry::ReadUnder(e, most) => {
            let Some((_, calls)) = spent.get_mut(e as usize) else {
                return false;
            };
            if *calls >= limits.calls || t.stopper != Some(e) || t.mode == Mode::Running || most < 0 {
                return false;
            }
            *calls += 1;
        }
        Entry::Go(e) => {
            if t.stopper != Some(e) {
                return false;
            }
            t.stopper = None;
        }
    }
    true
}

pub fn check() -> Res<bool> {
    let tree: Value = {
        let input = read_input()?;
        serde_json::from_slice(&input).map_err(|_| Fault::Json)?
    };
    let map = members(&tree, &["format", "limits", "agents", "entries"])?;
    let format = &map["format"];
    if !(format.is_u64() || format.is_i64()) {
        return Err(Fault::Shape(0));
    }
    let format = match format.as_u64() {
        Some(n @ (1 | 2)) => n,
        _ => return Err(Fault::Limit("format")),
    };
    let limits = limits(&map["limits"])?;
    let agents = map["agents"].as_u64().ok_or(Fault::Shape(0))?;
    if agents < 1 || agents > if format == 1 { 8 } else { 32 } {
        return Err(Fault::Limit("agents"));
    }
    let array = map["entries"].as_array().ok_or(Fault::Shape(0))?;
    if array.len() > 262_144 {
        return Err(Fault::Limit("entries"));
    }
    let mut entries = Vec::with_capacity(array.len());
    for (n, item) in array.iter().enumerate() {
        entries.push(entry(item, n + 1, format)?);
    }
    drop(tree);
    let mut thread = Thread::new(agents as usize);
    let mut spent = vec![(0, 0); agents as usize];
    let bad = entries.iter().position(|x| !fits(&mut thread, &limits, &mut spent, x));
    let text = match bad {
        None => "legal\n".to_owned(),
        Some(n) => format!("illegal {}\n", n),
    };
    std::io::stdout().lock().write_all(text.as_bytes()).map_err(|_| Fault::Write)?;
    Ok(bad.is_none())
}
