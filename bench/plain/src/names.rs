//! The names of threads, agents and methods, and the events that use them.
use crate::elements::{block, place, signed};
use crate::fault::{Fault, Res};
use crate::values::{Call, Event, Safe, Step};
use serde_json::Value;
use std::collections::HashMap;

fn is_name(text: &str) -> bool {
    (1..=64).contains(&text.len())
        && text.bytes().all(|b| b.is_ascii_alphanumeric() || b"_.$/<>".contains(&b))
}

pub fn texts<'a>(value: &'a Value, least: usize, most: usize, name: &'static str, seen: &mut HashMap<&'a str, u32>) -> Res<Vec<&'a str>> {
    let array = value.as_array().ok_or(Fault::Shape(0))?;
    let mut list = Vec::with_capacity(array.len());
    for item in array {
        list.push(item.as_str().ok_or(Fault::Shape(0))?);
    }
    if list.len() < least || list.len() > most {
        return Err(Fault::Limit(name));
    }
    for (n, text) in list.iter().enumerate() {
        if !is_name(text) || seen.insert(text, n as u32).is_some() {
            return Err(Fault::Name(0));
        }
    }
    Ok(list)
}

pub struct Names<'a> {
    pub threads: usize,
    pub subjects: HashMap<&'a str, u32>,
    pub methods: HashMap<&'a str, u32>,
}

impl<'a> Names<'a> {
    fn method(&self, value: &Value, item: usize) -> Res<u32> {
        let text = value.as_str().ok_or(Fault::Shape(item))?;
        self.methods.get(text).copied().ok_or(Fault::Name(item))
    }

    pub fn thread(&self, value: &Value, item: usize) -> Res<u32> {
        match value {
            Value::String(text) => match self.subjects.get(text.as_str()) {
                Some(n) if *n < 1000 => Ok(*n),
                _ => Err(Fault::Name(item)),
            },
            _ => place(value, item),
        }
    }

    fn caps(&self, value: &Value, item: usize) -> Res<u8> {
        let array = value.as_array().ok_or(Fault::Shape(item))?;
        if array.iter().any(|v| !v.is_string()) {
            return Err(Fault::Shape(item));
        }
        let mut caps = 0;
        for v in array {
            caps |= match v.as_str().unwrap() {
                "can_suspend" => 1,
                "can_pop_frame" => 2,
                "can_tag_objects" => 4,
                _ => return Err(Fault::Name(item)),
            };
        }
        Ok(caps)
    }

    /// An event of a thread, by its word and what stands after it.
    pub fn operation(&self, n: u32, word: &str, rest: &[Value], item: usize) -> Res<Event> {
        Ok(match (word, rest) {
            ("start", []) => Event::Start(n),
            ("poll", []) => Event::Poll(n),
            ("back", []) => Event::Back(n),
            ("end", []) => Event::End(n),
            ("leave", []) => Event::Own(n, Step::Leave),
            ("enter", [m]) => Event::Own(n, Step::Enter(self.method(m, item)?)),
            ("enter_native", [m]) => Event::Own(n, Step::EnterNative(self.method(m, item)?)),
            ("at", [p]) => Event::Own(n, Step::At(place(p, item)?)),
            ("native", []) => Event::Hand(n, Safe::Native),
            ("block", [kind]) => Event::Hand(n, Safe::Blocked(block(kind, item)?)),
            _ => return Err(Fault::Shape(item)),
        })
    }

    /// An event of an agent, by its word and what stands after it.
    pub fn question(&self, e: u32, word: &str, rest: &[Value], item: usize) -> Res<Event> {
        Ok(match (word, rest) {
            ("state", [t]) => Event::Ask(e, self.thread(t, item)?, Call::State),
            ("count", [t]) => Event::Ask(e, self.thread(t, item)?, Call::Count),
            ("suspend", [t]) => Event::Ask(e, self.thread(t, item)?, Call::Suspend),
            ("resume", [t]) => Event::Ask(e, self.thread(t, item)?, Call::Resume),
            ("pop", [t]) => Event::Ask(e, self.thread(t, item)?, Call::Pop),
            ("get", [t]) => Event::Ask(e, self.thread(t, item)?, Call::Get),
            ("trace", [t, s, m]) => {
                let t = self.thread(t, item)?;
                Event::Ask(e, t, Call::Trace(signed(s, item)?, signed(m, item)?))
            }
            ("location", [t, d]) => {
                let t = self.thread(t, item)?;
                Event::Ask(e, t, Call::Location(signed(d, item)?))
            }
            ("set", [t, w]) => {
                let t = self.thread(t, item)?;
                Event::Ask(e, t, Call::Set(w.as_u64().ok_or(Fault::Shape(item))?))
            }
            ("stop", [t]) => Event::Stop(e, self.thread(t, item)?),
            ("go", [t]) => Event::Go(e, self.thread(t, item)?),
            ("read", [t, m]) => {
                let t = self.thread(t, item)?;
                Event::ReadUnder(e, t, signed(m, item)?)
            }
            ("add", [c]) => Event::Add(e, self.caps(c, item)?),
            ("relinquish", [c]) => Event::Relinquish(e, self.caps(c, item)?),
            ("caps", []) => Event::Caps(e),
            ("getenv", []) => Event::GetEnv(e),
            ("setenv", [w]) => Event::SetEnv(e, w.as_u64().ok_or(Fault::Shape(item))?),
            _ => return Err(Fault::Shape(item)),
        })
    }
}
