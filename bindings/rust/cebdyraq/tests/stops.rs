//! Threads that stop for an environment.

use cebdyraq::{ClassInfo, Environment, Error, LineEntry, Lines, MethodInfo, Running, Service, Stop, StopKind};
use std::thread;

const LINES: [(u32, u32); 2] = [(0, 3), (4, 5)];

fn service() -> (Service, Environment) {
    let mut service = Service::make(4, 2, 1).unwrap();
    let table = LINES.iter().map(|&(start_location, line_number)| LineEntry { start_location, line_number }).collect();
    let class = ClassInfo {
        signature: "Lstops;".into(),
        source_file: None,
        methods: vec![MethodInfo { name: "work".into(), lines: Lines::Table(table), ..MethodInfo::default() }],
    };
    service.define_class(&class).unwrap();
    let env = service.attach_environment().unwrap();
    (service, env)
}

fn go_to(thread: &mut Running, location: u32) {
    thread.at(location).unwrap();
    let version = thread.stops_version();
    let may = thread.may_stop_in(0, 1).unwrap();
    if thread.may_stop() && thread.reached(0, location).unwrap() {
        assert!(may && thread.stops_version() > version);
        thread.stop().unwrap();
    }
}

fn stop(location: i64) -> Stop {
    Stop { thread: 0, method: 0, location, breakpoint: false, single_step: false, frame_pop: false }
}

#[test]
fn a_thread_stops_until_it_is_let_go() {
    let (mut service, mut env) = service();
    let fresh = service.attach_thread("worker", 5).unwrap();
    env.meet().unwrap();
    env.set_breakpoint(0, 4).unwrap();
    env.set_stop_notification_mode(true, StopKind::Breakpoint, None).unwrap();
    env.set_stop_notification_mode(true, StopKind::FramePop, Some(0)).unwrap();
    thread::scope(|scope| {
        scope.spawn(move || {
            let mut thread = fresh.start();
            thread.enter(0).unwrap();
            go_to(&mut thread, 0);
            go_to(&mut thread, 4);
            if thread.leaves(0, 4, 1).unwrap() {
                thread.stop().unwrap();
            }
        });
        assert_eq!(env.next_stop(), Ok(Stop { breakpoint: true, ..stop(4) }));
        assert_eq!(env.get_stack_trace(0, 0, 4).unwrap()[0].location, 4);
        assert_eq!(env.get_thread_state(0), Ok(0x291), "it is parked");
        env.notify_frame_pop(0, 1).unwrap();
        assert_eq!(env.notify_frame_pop(0, 1), Err(Error::Duplicate));
        env.end_stop(0).unwrap();
        assert_eq!(env.next_stop(), Ok(Stop { frame_pop: true, ..stop(4) }));
        env.end_stop(0).unwrap();
        assert_eq!(env.end_stop(0), Err(Error::ThreadNotSuspended));
    });
}

#[test]
fn a_breakpoint_is_set_where_there_can_be_one() {
    let (_service, mut env) = service();
    assert_eq!(env.set_breakpoint(1, 0), Err(Error::InvalidMethodid));
    assert_eq!(env.set_breakpoint(0, 1), Err(Error::InvalidLocation));
    env.set_breakpoint(0, 0).unwrap();
    assert_eq!(env.set_breakpoint(0, 0), Err(Error::Duplicate));
    assert_eq!(env.clear_breakpoint(0, 4), Err(Error::NotFound));
    env.clear_breakpoint(0, 0).unwrap();
}
