//! One thread as its owner and all agents see it: a slot behind a lock, and a flag that the owner's polls load.
use crate::thread::{waits, Thread};
use crate::values::{Call, Entry, Frame, Mode, Outcome, Stack, Step};
use std::collections::VecDeque;
use std::sync::atomic::{AtomicBool, Ordering};
use std::sync::{Condvar, Mutex, PoisonError};

pub struct Slot {
    /// Its frames are here while the thread is safe. What it has spent of its own is its owner's alone.
    pub thread: Thread,
    pub history: Vec<Entry>,
    /// How many calls each environment has asked.
    asked: Vec<u32>,
    /// The answers to each environment's calls that waited, in the order of their posting.
    told: Vec<VecDeque<Outcome>>,
    /// How many wait until the slot is as they want it, and whether it may be now.
    waiters: usize,
    news: bool,
}

impl Slot {
    /// The thread hands its frames over, with the steps that it took, and the waiting calls take place.
    pub fn hand(&mut self, mode: Mode, frames: Vec<Frame>, steps: &mut Vec<Step>) {
        self.history.extend(steps.drain(..).map(Entry::Own));
        self.history.push(match mode {
            Mode::Safe(safe) => Entry::Hand(safe),
            _ => Entry::End,
        });
        self.thread.frames = frames;
        self.thread.mode = mode;
        while let Some((env, call, _)) = self.thread.waiting.pop_front() {
            let outcome = self.thread.answer(env, call);
            self.told[env as usize].push_back(outcome);
        }
        self.news = true;
    }

    /// The thread starts, or returns with its frames.
    pub fn run(&mut self, entry: Entry) -> Vec<Frame> {
        self.history.push(entry);
        self.thread.mode = Mode::Running;
        std::mem::take(&mut self.thread.frames)
    }

    /// The answer to a call, or nothing where it waits.
    pub fn ask(&mut self, env: u32, call: Call) -> Option<Outcome> {
        let asked = &mut self.asked[env as usize];
        self.history.push(Entry::Asked(env, *asked, call));
        *asked += 1;
        if waits(call) && self.thread.mode == Mode::Running {
            self.thread.waiting.push_back((env, call, 0));
            return None;
        }
        self.news |= matches!(call, Call::Resume);
        Some(self.thread.answer(env, call))
    }

    pub fn is_told(&self, env: u32) -> bool {
        !self.told[env as usize].is_empty()
    }

    pub fn collect(&mut self, env: u32) -> Outcome {
        self.told[env as usize].pop_front().unwrap()
    }

    pub fn stop(&mut self, env: u32) {
        self.history.push(Entry::Stop(env));
        self.thread.stopper = Some(env);
    }

    pub fn read(&mut self, env: u32, thread: u32, most: i32) -> Stack {
        self.history.push(Entry::ReadUnder(env, most));
        Stack { thread, bits: self.thread.bits(), frames: self.thread.newest(0, most as usize) }
    }

    pub fn go(&mut self, env: u32) {
        self.history.push(Entry::Go(env));
        self.thread.stopper = None;
        self.news = true;
    }
}

pub struct Cell {
    armed: AtomicBool,
    slot: Mutex<Slot>,
    changed: Condvar,
}

impl Cell {
    pub fn new(envs: usize) -> Self {
        Cell {
            armed: AtomicBool::new(false),
            slot: Mutex::new(Slot {
                thread: Thread::new(envs),
                history: Vec::new(),
                asked: vec![0; envs],
                told: (0..envs).map(|_| VecDeque::new()).collect(),
                waiters: 0,
                news: false,
            }),
            changed: Condvar::new(),
        }
    }

    /// Whether somebody calls for the thread.
    pub fn is_armed(&self) -> bool {
        self.armed.load(Ordering::Acquire)
    }

    /// Changes the slot, once it is as `ready` wants it.
    pub fn change<T>(&self, ready: impl Fn(&Slot) -> bool, change: impl FnOnce(&mut Slot) -> T) -> T {
        let mut slot = self.slot.lock().unwrap();
        while !ready(&slot) {
            slot.waiters += 1;
            slot = self.changed.wait(slot).unwrap();
            slot.waiters -= 1;
        }
        let result = change(&mut slot);
        self.armed.store(slot.thread.armed(), Ordering::Release);
        let wakes = std::mem::take(&mut slot.news) && slot.waiters > 0;
        drop(slot);
        if wakes {
            self.changed.notify_all();
        }
        result
    }

    /// Changes the slot as it is.
    pub fn change_now<T>(&self, change: impl FnOnce(&mut Slot) -> T) -> T {
        self.change(|_| true, change)
    }

    /// The history that it ends with.
    pub fn into_history(self) -> Vec<Entry> {
        self.slot.into_inner().unwrap_or_else(PoisonError::into_inner).history
    }
}
