//! All threads and environments.
use crate::thread::{waits, Thread};
use crate::values::{Event, Limits, Mode, Outcome, Safe};

pub struct Env {
    pub caps: u8,
    pub spent: Vec<u32>,
    pub word: u64,
}

pub struct Machine {
    pub limits: Limits,
    pub threads: Vec<Thread>,
    pub envs: Vec<Env>,
}

impl Env {
    pub fn new(threads: usize) -> Self {
        Env { caps: 0, spent: vec![0; threads], word: 0 }
    }

    pub fn admit(&self, thread: u32, needed: u8, well_formed: bool, limits: &Limits) -> Result<(), u32> {
        if self.caps & needed != needed {
            return Err(99);
        }
        if thread as usize >= self.spent.len() {
            return Err(10);
        }
        if !well_formed {
            return Err(103);
        }
        if self.spent[thread as usize] >= limits.calls {
            return Err(209);
        }
        Ok(())
    }

    pub fn add(&mut self, caps: u8) -> Result<(), u32> {
        if caps >= 4 {
            return Err(98);
        }
        self.caps |= caps;
        Ok(())
    }
}

impl Machine {
    fn admit(&self, env: u32, thread: u32, needed: u8, well_formed: bool) -> Result<(), u32> {
        self.envs[env as usize].admit(thread, needed, well_formed, &self.limits)
    }

    pub fn event(&mut self, event: Event, at: usize, outcomes: &mut [Outcome]) -> Result<Outcome, u32> {
        let limits = self.limits;
        Ok(match event {
            Event::Start(t) => {
                let t = &mut self.threads[t as usize];
                if t.mode != Mode::New {
                    return Err(210);
                }
                if t.stopper.is_some() {
                    return Err(206);
                }
                t.mode = Mode::Running;
                Outcome::Done
            }
            Event::Own(t, step) => {
                self.threads[t as usize].step(step, &limits)?;
                Outcome::Done
            }
            Event::Poll(t) => {
                let t = &mut self.threads[t as usize];
                if t.mode != Mode::Running {
                    return Err(204);
                }
                if !t.armed() {
                    return Ok(Outcome::Clear);
                }
                t.mode = Mode::Safe(Safe::Poll);
                t.serve(outcomes);
                if t.barred() {
                    Outcome::Held
                } else {
                    t.mode = Mode::Running;
                    Outcome::Went
                }
            }
            Event::Hand(t, safe) => {
                let t = &mut self.threads[t as usize];
                if let Some(error) = t.hand_refusal(safe, &limits) {
                    return Err(error);
                }
                t.own += 2;
                t.mode = Mode::Safe(safe);
                t.serve(outcomes);
                Outcome::Done
            }
            Event::Back(t) => {
                let t = &mut self.threads[t as usize];
                if !matches!(t.mode, Mode::Safe(_)) {
                    return Err(205);
                }
                if t.barred() {
                    return Err(206);
                }
                t.mode = Mode::Running;
                Outcome::Done
            }
            Event::End(t) => {
                let t = &mut self.threads[t as usize];
                if t.mode != Mode::Running {
                    return Err(204);
                }
                t.frames.clear();
                t.mode = Mode::Ended;
                t.serve(outcomes);
                Outcome::Done
            }
            Event::Ask(e, t, call) => {
                self.admit(e, t, call.needs(), call.is_well_formed())?;
                self.envs[e as usize].spent[t as usize] += 1;
                let thread = &mut self.threads[t as usize];
                if waits(call) && thread.mode == Mode::Running {
                    thread.waiting.push_back((e, call, at));
                    Outcome::Unanswered
                } else {
                    thread.answer(e, call)
                }
            }
            Event::Stop(e, t) => {
                self.admit(e, t, 0, true)?;
                self.envs[e as usize].spent[t as usize] += 1;
                let thread = &mut self.threads[t as usize];
                if thread.stopper.is_some() {
                    return Err(211);
                }
                thread.stopper = Some(e);
                Outcome::Done
            }
            Event::ReadUnder(e, t, most) => {
                self.admit(e, t, 0, most >= 0)?;
                self.envs[e as usize].spent[t as usize] += 1;
                let thread = &self.threads[t as usize];
                if thread.stopper != Some(e) {
                    return Err(212);
                }
                if thread.mode == Mode::Running {
                    return Err(213);
                }
                Outcome::Stack(thread.bits(), thread.newest(0, most as usize))
            }
            Event::Go(e, t) => {
                if t as usize >= self.threads.len() {
                    return Err(10);
                }
                let thread = &mut self.threads[t as usize];
                if thread.stopper != Some(e) {
                    return Err(212);
                }
                thread.stopper = None;
                Outcome::Done
            }
            Event::Add(e, caps) => {
                self.envs[e as usize].add(caps)?;
                Outcome::Done
            }
            Event::Relinquish(e, caps) => {
                self.envs[e as usize].caps &= !caps;
                Outcome::Done
            }
            Event::Caps(e) => Outcome::Caps(self.envs[e as usize].caps),
            Event::SetEnv(e, word) => {
                self.envs[e as usize].word = word;
                Outcome::Done
            }
            Event::GetEnv(e) => Outcome::Word(self.envs[e as usize].word),
        })
    }
}
