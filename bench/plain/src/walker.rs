//! A thread of a live run, which goes through its operations.
use crate::cell::Cell;
use crate::thread::{refused_hand, take_step};
use crate::values::{Entry, Event, Frame, Limits, Mode, Safe, Step};

/// A refused operation: its number, and that of the error.
pub type Refusal = (usize, u32);

pub struct Walker<'a> {
    cell: &'a Cell,
    limits: Limits,
    mode: Mode,
    /// Its frames while it runs.
    frames: Vec<Frame>,
    own: u32,
    /// What it did since it handed over last.
    steps: Vec<Step>,
}

impl<'a> Walker<'a> {
    pub fn new(cell: &'a Cell, limits: Limits) -> Self {
        Walker { cell, limits, mode: Mode::New, frames: Vec::new(), own: 0, steps: Vec::new() }
    }

    /// Goes through the operations, and gives the refused ones.
    pub fn walk(mut self, operations: &[Event]) -> Vec<Refusal> {
        let mut refused = Vec::new();
        for (number, operation) in operations.iter().enumerate() {
            if let Err(error) = self.operation(*operation) {
                refused.push((number, error));
            }
        }
        if self.mode == Mode::Running {
            self.hand(Mode::Ended);
        }
        refused
    }

    fn operation(&mut self, operation: Event) -> Result<(), u32> {
        match operation {
            Event::Start(_) if self.mode != Mode::New => return Err(210),
            Event::Back(_) if !matches!(self.mode, Mode::Safe(_)) => return Err(205),
            Event::Start(_) => self.run(Entry::Start),
            Event::Back(_) => self.run(Entry::Back),
            _ if self.mode != Mode::Running => return Err(204),
            Event::Own(_, step) => {
                take_step(&mut self.frames, &mut self.own, step, &self.limits)?;
                self.steps.push(step);
            }
            Event::Poll(_) => self.poll(),
            Event::Hand(_, safe) => {
                if let Some(error) = refused_hand(&self.frames, self.own, safe, &self.limits) {
                    return Err(error);
                }
                self.own += 2;
                self.hand(Mode::Safe(safe));
            }
            Event::End(_) => self.hand(Mode::Ended),
            _ => unreachable!(),
        }
        Ok(())
    }

    /// Starts or returns, once nothing bars it.
    fn run(&mut self, entry: Entry) {
        self.frames = self.cell.change(|slot| !slot.thread.barred(), |slot| slot.run(entry));
        self.mode = Mode::Running;
    }

    /// Hands over, or ends.
    fn hand(&mut self, mode: Mode) {
        let frames = if mode == Mode::Ended { Vec::new() } else { std::mem::take(&mut self.frames) };
        self.cell.change_now(|slot| slot.hand(mode, frames, &mut self.steps));
        self.mode = mode;
    }

    /// Hands over where somebody calls for the thread, and returns once nothing bars it.
    fn poll(&mut self) {
        if !self.cell.is_armed() {
            return;
        }
        let (frames, steps) = (&mut self.frames, &mut self.steps);
        let is_held = self.cell.change_now(|slot| {
            if !slot.thread.armed() {
                return false;
            }
            slot.hand(Mode::Safe(Safe::Poll), std::mem::take(frames), steps);
            let is_held = slot.thread.barred();
            if !is_held {
                *frames = slot.run(Entry::Back);
            }
            is_held
        });
        if is_held {
            self.run(Entry::Back);
        }
    }
}
