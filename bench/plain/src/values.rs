//! What a thread does, what it is asked, and what comes of it.

#[derive(Clone, Copy)]
pub struct Limits {
    pub depth: usize,
    pub own: u32,
    pub calls: u32,
}

#[derive(Clone, Copy, PartialEq)]
pub struct Frame {
    pub method: u32,
    pub place: i64,
}

#[derive(Clone, Copy, PartialEq)]
pub enum Safe {
    Native,
    Poll,
    Blocked(u32),
}

#[derive(Clone, Copy, PartialEq)]
pub enum Mode {
    New,
    Running,
    Safe(Safe),
    Ended,
}

#[derive(Clone, Copy)]
pub enum Step {
    Enter(u32),
    EnterNative(u32),
    At(u32),
    Leave,
}

#[derive(Clone, Copy)]
pub enum Call {
    State,
    Count,
    Trace(i32, i32),
    Location(i32),
    Suspend,
    Resume,
    Get,
    Set(u64),
    Pop,
}

impl Call {
    /// The capabilities that it needs.
    pub fn needs(self) -> u8 {
        match self {
            Call::Suspend | Call::Resume => 1,
            Call::Pop => 2,
            _ => 0,
        }
    }

    pub fn is_well_formed(self) -> bool {
        match self {
            Call::Trace(_, most) => most >= 0,
            Call::Location(depth) => depth >= 0,
            _ => true,
        }
    }
}

#[derive(Clone, Copy)]
pub enum Event {
    Start(u32),
    Own(u32, Step),
    Poll(u32),
    Hand(u32, Safe),
    Back(u32),
    End(u32),
    Ask(u32, u32, Call),
    Stop(u32, u32),
    ReadUnder(u32, u32, i32),
    Go(u32, u32),
    Add(u32, u8),
    Relinquish(u32, u8),
    Caps(u32),
    SetEnv(u32, u64),
    GetEnv(u32),
}

pub enum Entry {
    Start,
    Own(Step),
    Hand(Safe),
    Back,
    End,
    Asked(u32, u32, Call),
    Stop(u32),
    ReadUnder(u32, i32),
    Go(u32),
}

pub enum Outcome {
    Done,
    Clear,
    Went,
    Held,
    Refused(u32),
    State(u32),
    Count(usize),
    Word(u64),
    Trace(Vec<Frame>),
    Location(Frame),
    Stack(u32, Vec<Frame>),
    Caps(u8),
    Unanswered,
}

/// A call of an agent in a live run.
pub enum Request {
    One(Event),
    SuspendList(Vec<u32>),
    ResumeList(Vec<u32>),
    AllStacks(i32),
    ListStacks(Vec<u32>, i32),
}

pub struct Stack {
    pub thread: u32,
    pub bits: u32,
    pub frames: Vec<Frame>,
}

pub enum Reply {
    Plain(Outcome),
    Codes(Vec<u32>),
    Stacks(Vec<Stack>),
}
