//! One thread: its frames, its flags, and the calls that wait at it.
use crate::values::{Call, Frame, Limits, Mode, Outcome, Safe, Step};
use std::collections::VecDeque;

pub struct Thread {
    pub mode: Mode,
    pub frames: Vec<Frame>,
    pub suspended: bool,
    pub stopper: Option<u32>,
    pub words: Vec<u64>,
    pub own: u32,
    pub waiting: VecDeque<(u32, Call, usize)>,
}

impl Thread {
    pub fn new(envs: usize) -> Self {
        Thread {
            mode: Mode::New,
            frames: Vec::new(),
            suspended: false,
            stopper: None,
            words: vec![0; envs],
            own: 0,
            waiting: VecDeque::new(),
        }
    }

    pub fn barred(&self) -> bool {
        self.suspended || self.stopper.is_some()
    }

    pub fn armed(&self) -> bool {
        !self.waiting.is_empty() || self.stopper.is_some()
    }

    pub fn alive(&self) -> bool {
        matches!(self.mode, Mode::Running | Mode::Safe(_))
    }

    pub fn bits(&self) -> u32 {
        let bits = match self.mode {
            Mode::New => 0,
            Mode::Running | Mode::Safe(Safe::Poll) => 0x5,
            Mode::Safe(Safe::Native) => 0x400005,
            Mode::Safe(Safe::Blocked(bits)) => bits,
            Mode::Ended => 2,
        };
        if self.suspended {
            bits | 0x100000
        } else {
            bits
        }
    }

    pub fn step(&mut self, step: Step, limits: &Limits) -> Result<(), u32> {
        if self.mode != Mode::Running {
            return Err(204);
        }
        take_step(&mut self.frames, &mut self.own, step, limits)
    }

    pub fn hand_refusal(&self, safe: Safe, limits: &Limits) -> Option<u32> {
        if self.mode != Mode::Running {
            return Some(204);
        }
        refused_hand(&self.frames, self.own, safe, limits)
    }

    pub fn pop_refusal(&self) -> Option<u32> {
        if !self.suspended {
            return Some(13);
        }
        let n = self.frames.len();
        if n < 2 {
            return Some(31);
        }
        if self.frames[n - 1].place < 0 || self.frames[n - 2].place < 0 {
            return Some(32);
        }
        None
    }

    pub fn newest(&self, first: usize, most: usize) -> Vec<Frame> {
        self.frames.iter().rev().skip(first).take(most).copied().collect()
    }

    pub fn answer(&mut self, env: u32, call: Call) -> Outcome {
        if let Call::State = call {
            return Outcome::State(self.bits());
        }
        if !self.alive() {
            return Outcome::Refused(15);
        }
        match call {
            Call::State => Outcome::State(self.bits()),
            Call::Count => Outcome::Count(self.frames.len()),
            Call::Trace(start, most) => {
                let n = self.frames.len();
                let first = if start >= 0 { start as i64 } else { n as i64 + start as i64 };
                if first < 0 || (first >= n as i64 && start != 0) {
                    return Outcome::Refused(103);
                }
                Outcome::Trace(self.newest(first as usize, most as usize))
            }
            Call::Location(depth) => match self.frames.iter().rev().nth(depth as usize) {
                Some(frame) => Outcome::Location(*frame),
                None => Outcome::Refused(31),
            },
            Call::Suspend => {
                if self.suspended {
                    return Outcome::Refused(14);
                }
                self.suspended = true;
                Outcome::Done
            }
            Call::Resume => {
                if !self.suspended {
                    return Outcome::Refused(13);
                }
                self.suspended = false;
                Outcome::Done
            }
            Call::Get => Outcome::Word(self.words[env as usize]),
            Call::Set(word) => {
                self.words[env as usize] = word;
                Outcome::Done
            }
            Call::Pop => match self.pop_refusal() {
                Some(error) => Outcome::Refused(error),
                None => {
                    self.frames.pop();
                    Outcome::Done
                }
            },
        }
    }

    pub fn serve(&mut self, outcomes: &mut [Outcome]) {
        while let Some((env, call, at)) = self.waiting.pop_front() {
            outcomes[at] = self.answer(env, call);
        }
    }
}

pub fn waits(call: Call) -> bool {
    matches!(call, Call::Count | Call::Trace(..) | Call::Location(_) | Call::Suspend | Call::Pop)
}

/// A step of a running thread on its frames.
pub fn take_step(frames: &mut Vec<Frame>, own: &mut u32, step: Step, limits: &Limits) -> Result<(), u32> {
    match step {
        Step::Enter(_) | Step::EnterNative(_) => {
            if frames.len() >= limits.depth {
                return Err(201);
            }
        }
        Step::At(_) => match frames.last() {
            None => return Err(202),
            Some(f) if f.place < 0 => return Err(203),
            _ => {}
        },
        Step::Leave => {
            if frames.is_empty() {
                return Err(202);
            }
        }
    }
    if *own >= limits.own {
        return Err(208);
    }
    *own += 1;
    match step {
        Step::Enter(method) => frames.push(Frame { method, place: 0 }),
        Step::EnterNative(method) => frames.push(Frame { method, place: -1 }),
        Step::At(place) => frames.last_mut().unwrap().place = place as i64,
        Step::Leave => {
            frames.pop();
        }
    }
    Ok(())
}

/// Why a running thread may not hand over.
pub fn refused_hand(frames: &[Frame], own: u32, safe: Safe, limits: &Limits) -> Option<u32> {
    if safe == Safe::Native && !frames.last().map_or(false, |f| f.place < 0) {
        return Some(207);
    }
    if safe != Safe::Poll && own + 2 > limits.own {
        return Some(208);
    }
    None
}
