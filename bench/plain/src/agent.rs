//! An agent of a live run, which makes its calls.
use crate::cell::Cell;
use crate::machine::Env;
use crate::values::{Call, Event, Limits, Mode, Outcome, Reply, Request, Stack};
use std::sync::Mutex;

pub struct Agent<'a> {
    number: u32,
    env: Env,
    limits: Limits,
    cells: &'a [Cell],
    /// Who has it stops threads.
    turn: &'a Mutex<()>,
}

impl<'a> Agent<'a> {
    pub fn new(number: u32, limits: Limits, cells: &'a [Cell], turn: &'a Mutex<()>) -> Self {
        Agent { number, env: Env::new(cells.len()), limits, cells, turn }
    }

    /// Makes the calls, and gives the replies.
    pub fn call_all(mut self, requests: &[Request]) -> Vec<Reply> {
        let refused = |error| Reply::Plain(Outcome::Refused(error));
        requests.iter().map(|request| self.call(request).unwrap_or_else(refused)).collect()
    }

    fn call(&mut self, request: &Request) -> Result<Reply, u32> {
        Ok(match request {
            Request::One(event) => Reply::Plain(self.one(*event)?),
            Request::SuspendList(threads) => Reply::Codes(self.each(threads, Call::Suspend)?),
            Request::ResumeList(threads) => Reply::Codes(self.each(threads, Call::Resume)?),
            Request::AllStacks(most) => Reply::Stacks(self.all_stacks(*most)?),
            Request::ListStacks(threads, most) => Reply::Stacks(self.list_stacks(threads, *most)?),
        })
    }

    fn one(&mut self, event: Event) -> Result<Outcome, u32> {
        Ok(match event {
            Event::Ask(_, thread, call) => match self.post(thread, call)? {
                Some(outcome) => outcome,
                None => self.collect(thread),
            },
            Event::Add(_, caps) => {
                self.env.add(caps)?;
                Outcome::Done
            }
            Event::Relinquish(_, caps) => {
                self.env.caps &= !caps;
                Outcome::Done
            }
            Event::Caps(_) => Outcome::Caps(self.env.caps),
            Event::SetEnv(_, word) => {
                self.env.word = word;
                Outcome::Done
            }
            Event::GetEnv(_) => Outcome::Word(self.env.word),
            _ => unreachable!(),
        })
    }

    /// Asks a call: its answer, or nothing where it waits.
    fn post(&mut self, thread: u32, call: Call) -> Result<Option<Outcome>, u32> {
        self.env.admit(thread, call.needs(), call.is_well_formed(), &self.limits)?;
        self.env.spent[thread as usize] += 1;
        Ok(self.cells[thread as usize].change_now(|slot| slot.ask(self.number, call)))
    }

    /// The answer to the oldest call that waits there, once it is there.
    fn collect(&self, thread: u32) -> Outcome {
        self.cells[thread as usize].change(|slot| slot.is_told(self.number), |slot| slot.collect(self.number))
    }

    /// A call at each thread, and a code of each.
    fn each(&mut self, threads: &[u32], call: Call) -> Result<Vec<u32>, u32> {
        if self.env.caps & call.needs() != call.needs() {
            return Err(99);
        }
        let posted: Vec<_> = threads.iter().map(|thread| self.post(*thread, call)).collect();
        Ok(threads
            .iter()
            .zip(posted)
            .map(|(thread, posted)| match posted.map(|outcome| outcome.unwrap_or_else(|| self.collect(*thread))) {
                Ok(Outcome::Refused(error)) | Err(error) => error,
                Ok(_) => 0,
            })
            .collect())
    }

    fn all_stacks(&mut self, most: i32) -> Result<Vec<Stack>, u32> {
        if most < 0 {
            return Err(103);
        }
        let threads: Vec<u32> = (0..self.cells.len() as u32).collect();
        let mut stacks = self.stacks(&threads, &vec![1; threads.len()], most)?;
        stacks.retain(|stack| stack.bits & 1 == 1);
        Ok(stacks)
    }

    fn list_stacks(&mut self, threads: &[u32], most: i32) -> Result<Vec<Stack>, u32> {
        if threads.iter().any(|thread| *thread as usize >= self.cells.len()) {
            return Err(10);
        }
        if most < 0 {
            return Err(103);
        }
        let mut reads = vec![0; self.cells.len()];
        threads.iter().for_each(|thread| reads[*thread as usize] += 1);
        self.stacks(threads, &reads, most)
    }

    /// Reads the threads of a list, while all that are in it stand.
    fn stacks(&mut self, threads: &[u32], reads: &[u32], most: i32) -> Result<Vec<Stack>, u32> {
        let (env, cells) = (self.number, self.cells);
        let spent = &mut self.env.spent;
        if reads.iter().zip(spent.iter()).any(|(reads, spent)| *reads > 0 && spent + reads >= self.limits.calls) {
            return Err(209);
        }
        for (spent, reads) in spent.iter_mut().zip(reads) {
            *spent += if *reads > 0 { reads + 1 } else { 0 };
        }
        let listed = || cells.iter().zip(reads).filter(|(_, reads)| **reads > 0).map(|(cell, _)| cell);
        let _turn = self.turn.lock().unwrap();
        for cell in listed() {
            cell.change(|slot| slot.thread.stopper.is_none(), |slot| slot.stop(env));
        }
        for cell in listed() {
            cell.change(|slot| slot.thread.mode != Mode::Running, |_| ());
        }
        let read = |thread: &u32| cells[*thread as usize].change_now(|slot| slot.read(env, *thread, most));
        let stacks = threads.iter().map(read).collect();
        for cell in listed() {
            cell.change_now(|slot| slot.go(env));
        }
        Ok(stacks)
    }
}
