//! The plain counterpart of `tibench cells`: threads lock a std `Mutex` round a thread's structure, each 1,024 times in each of
//! 256 rounds, and set their word at each lock. `holds HOW`, with HOW as in `tibench cells`: `one`, `two` or `four` threads at one
//! structure, or `apart`, four threads at one each. `bench/cells.py` times both.
#[allow(dead_code)]
#[path = "../thread.rs"]
mod thread;
#[allow(dead_code)]
#[path = "../values.rs"]
mod values;

use std::sync::Mutex;
use thread::Thread;
use values::Call;

const HOLDS: u32 = 1024;
const ROUNDS: u32 = 256;

/// A thread's structure, and how many calls each environment asked of it.
struct Slot {
    thread: Thread,
    asked: Vec<u32>,
}

fn slot() -> Mutex<Slot> {
    let envs = 4;
    let mut thread = Thread::new(envs);
    thread.mode = values::Mode::Running;
    Mutex::new(Slot {
        thread,
        asked: vec![0; envs],
    })
}

/// Sets the environment's word by one lock, as often as the environment may call.
fn lock_often(slot: &Mutex<Slot>, env: u32) {
    for i in 0..HOLDS {
        let mut slot = slot.lock().unwrap();
        slot.asked[env as usize] += 1;
        std::hint::black_box(slot.thread.answer(env, Call::Set(u64::from(i))));
    }
}

/// So many threads lock one structure.
fn together(threads: u32) {
    for _ in 0..ROUNDS {
        let slot = slot();
        std::thread::scope(|scope| {
            for env in 1..threads {
                let slot = &slot;
                scope.spawn(move || lock_often(slot, env));
            }
            lock_often(&slot, 0);
        });
    }
}

/// Four threads lock a structure each.
fn apart() {
    let alone = || {
        for _ in 0..ROUNDS {
            lock_often(&slot(), 0);
        }
    };
    std::thread::scope(|scope| {
        for _ in 1..4 {
            scope.spawn(alone);
        }
        alone();
    });
}

fn main() {
    match std::env::args().nth(1).as_deref() {
        Some("one") => together(1),
        Some("two") => together(2),
        Some("four") => together(4),
        Some("apart") => apart(),
        _ => std::process::exit(2),
    }
}
