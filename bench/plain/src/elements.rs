//! What walks and histories have in common.
use crate::fault::{Fault, Res};
use crate::values::Limits;
use serde_json::{Map, Value};
use std::io::Read;

pub const BLOCKS: [(&str, u32); 6] = [
    ("monitor", 0x401),
    ("wait", 0x191),
    ("timed_wait", 0x1A1),
    ("sleep", 0xE1),
    ("park", 0x291),
    ("timed_park", 0x2A1),
];

pub fn members<'a>(value: &'a Value, names: &[&str]) -> Res<&'a Map<String, Value>> {
    let map = value.as_object().ok_or(Fault::Shape(0))?;
    if map.len() != names.len() || names.iter().any(|n| !map.contains_key(*n)) {
        return Err(Fault::Shape(0));
    }
    Ok(map)
}

pub fn limits(value: &Value) -> Res<Limits> {
    let map = members(value, &["depth", "own", "calls"])?;
    let mut got = [0u64; 3];
    for (g, name) in got.iter_mut().zip(["depth", "own", "calls"]) {
        *g = map[name].as_u64().ok_or(Fault::Shape(0))?;
    }
    for ((g, top), name) in got.iter().zip([4096, 65536, 1024]).zip(["depth", "own", "calls"]) {
        if *g < 1 || *g > top {
            return Err(Fault::Limit(name));
        }
    }
    Ok(Limits { depth: got[0] as usize, own: got[1] as u32, calls: got[2] as u32 })
}

pub fn place(value: &Value, item: usize) -> Res<u32> {
    value.as_u64().and_then(|n| u32::try_from(n).ok()).ok_or(Fault::Shape(item))
}

pub fn signed(value: &Value, item: usize) -> Res<i32> {
    value.as_i64().and_then(|n| i32::try_from(n).ok()).ok_or(Fault::Shape(item))
}

pub fn block(value: &Value, item: usize) -> Res<u32> {
    let text = value.as_str().ok_or(Fault::Shape(item))?;
    BLOCKS.iter().find(|b| b.0 == text).map(|b| b.1).ok_or(Fault::Shape(item))
}

pub fn read_input() -> Res<Vec<u8>> {
    let mut input = Vec::new();
    std::io::stdin().lock().take(8_388_609).read_to_end(&mut input).map_err(|_| Fault::Read)?;
    if input.len() > 8_388_608 {
        return Err(Fault::Limit("input"));
    }
    Ok(input)
}
