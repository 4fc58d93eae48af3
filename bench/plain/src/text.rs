//! The texts of outcomes and replies.
use crate::values::{Frame, Outcome, Reply};
use std::fmt::Write as _;

fn put_frame(out: &mut String, methods: &[&str], frame: &Frame) {
    let _ = write!(out, " {}@{}", methods[frame.method as usize], frame.place);
}

fn put_outcome(out: &mut String, methods: &[&str], outcome: &Outcome) {
    match outcome {
        Outcome::Done => out.push_str("ok"),
        Outcome::Clear => out.push_str("clear"),
        Outcome::Went => out.push_str("went"),
        Outcome::Held => out.push_str("held"),
        Outcome::Unanswered => out.push_str("unanswered"),
        Outcome::Refused(error) => drop(write!(out, "error {}", error)),
        Outcome::State(bits) => drop(write!(out, "state 0x{:x}", bits)),
        Outcome::Count(n) => drop(write!(out, "count {}", n)),
        Outcome::Word(word) => drop(write!(out, "word {}", word)),
        Outcome::Trace(frames) => {
            out.push_str("trace");
            frames.iter().for_each(|f| put_frame(out, methods, f));
        }
        Outcome::Location(frame) => {
            out.push_str("location");
            put_frame(out, methods, frame);
        }
        Outcome::Stack(bits, frames) => {
            let _ = write!(out, "stack 0x{:x}", bits);
            frames.iter().for_each(|f| put_frame(out, methods, f));
        }
        Outcome::Caps(caps) => {
            out.push_str("caps");
            for (bit, name) in [(1, "can_suspend"), (2, "can_pop_frame"), (4, "can_tag_objects")] {
                if caps & bit != 0 {
                    out.push(' ');
                    out.push_str(name);
                }
            }
        }
    }
}

pub fn put_line(out: &mut String, methods: &[&str], index: usize, outcome: &Outcome) {
    let _ = write!(out, "{} ", index);
    put_outcome(out, methods, outcome);
    out.push('\n');
}

pub fn put_reply(out: &mut String, threads: &[&str], methods: &[&str], agent: &str, number: usize, reply: &Reply) {
    let _ = write!(out, "{} {} ", agent, number);
    match reply {
        Reply::Plain(outcome) => put_outcome(out, methods, outcome),
        Reply::Codes(codes) => {
            out.push_str("codes");
            for code in codes {
                let _ = write!(out, " {}", code);
            }
        }
        Reply::Stacks(stacks) => {
            out.push_str("stacks");
            for stack in stacks {
                let _ = write!(out, " | {} 0x{:x}", threads[stack.thread as usize], stack.bits);
                stack.frames.iter().for_each(|f| put_frame(out, methods, f));
            }
        }
    }
    out.push('\n');
}
