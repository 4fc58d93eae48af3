//! Why a document is refused, or a run ends early.

pub enum Fault {
    Json,
    Shape(usize),
    Name(usize),
    Limit(&'static str),
    Usage,
    Read,
    Write,
}

pub type Res<T> = Result<T, Fault>;
