//! A runtime and its agents, each on a thread of its own.

use cebdyraq::{capabilities, Answer, Any, Call, ClassInfo, Ended, Environment, Error, Event, EventKind, Frame, Fresh, Posted};
use cebdyraq::{Reason, Running, Safe, ServeError, Service, StackInfo, ThreadInfo, Ticket};
use std::io::{ErrorKind, Read, Write};
use std::net::TcpStream;
use std::sync::atomic::{AtomicBool, Ordering::SeqCst};
use std::thread;
use std::time::{Duration, Instant};

fn with_thread() -> (Service, Running, Environment) {
    let mut service = Service::make(16, 2, 4).unwrap();
    let running = service.attach_thread("main", 5).unwrap().start();
    let mut env = service.attach_environment().unwrap();
    env.meet().unwrap();
    (service, running, env)
}

fn may_go_to_another_thread<T: Send>() {}

#[test]
fn every_value_may_go_to_another_thread() {
    may_go_to_another_thread::<Service>();
    may_go_to_another_thread::<Environment>();
    may_go_to_another_thread::<(Fresh, Running, Safe, Ended)>();
}

/// Polls on a thread of its own while the agent does something.
fn while_polling<T>(running: &mut Running, agent: impl FnOnce() -> T) -> T {
    struct Over<'a>(&'a AtomicBool);
    impl Drop for Over<'_> {
        fn drop(&mut self) {
            self.0.store(true, SeqCst);
        }
    }
    let over = AtomicBool::new(false);
    thread::scope(|scope| {
        let is_over = &over;
        let running = &mut *running;
        scope.spawn(move || {
            let running = running;
            while !is_over.load(SeqCst) {
                running.poll();
                thread::yield_now();
            }
        });
        let _over = Over(&over);
        agent()
    })
}

#[test]
fn a_running_thread_answers_at_its_polls() {
    let (_service, mut running, mut env) = with_thread();
    running.enter(1).unwrap();
    running.at(17).unwrap();
    running.enter(2).unwrap();
    running.enter_native(3).unwrap();
    while_polling(&mut running, || {
        assert_eq!(env.get_frame_count(0), Ok(3));
        assert_eq!(env.get_thread_state(0), Ok(0x5));
        let trace = [(3, -1), (2, 0), (1, 17)].map(|(method, location)| Frame { method, location });
        assert_eq!(env.get_stack_trace(0, 0, 8).unwrap(), trace);
        assert_eq!(env.get_stack_trace(0, -1, 8).unwrap(), trace[2..]);
        assert_eq!(env.get_stack_trace(0, 0, -1), Err(Error::IllegalArgument));
        assert_eq!(env.get_frame_location(0, 1), Ok(trace[1]));
        assert_eq!(env.get_frame_location(0, 3), Err(Error::NoMoreFrames));
        assert_eq!(env.get_frame_count(1), Err(Error::InvalidThread));
    });
}

#[test]
fn an_error_is_told_in_words() {
    assert_eq!(Error::ThreadNotAlive.to_string(), "15 ThreadNotAlive: the thread has not started, or has ended");
    assert_eq!(Error::TimedOut.name(), "CQ_TIMED_OUT");
    assert_eq!(Error::TimedOut.text(), "the time is over");
}

#[test]
fn a_suspended_thread_stays() {
    let (_service, mut running, mut env) = with_thread();
    running.set_frames(&[Frame { method: 2, location: 5 }, Frame { method: 1, location: 9 }]).unwrap();
    assert_eq!(env.suspend_thread(0), Err(Error::MustPossessCapability));
    env.add_capabilities(capabilities::SUSPEND | capabilities::POP_FRAME).unwrap();
    assert_eq!(env.add_capabilities(4), Err(Error::NotAvailable));
    while_polling(&mut running, || {
        assert_eq!(env.suspend_thread_list(&[0, 0]).unwrap(), [Ok(()), Err(Error::ThreadSuspended)]);
        assert_eq!(env.get_thread_state(0), Ok(0x100005));
        assert_eq!(env.pop_frame(0), Ok(()));
        assert_eq!(env.get_frame_location(0, 0), Ok(Frame { method: 1, location: 9 }));
        assert_eq!(env.pop_frame(0), Err(Error::NoMoreFrames));
        assert_eq!(env.resume_thread_list(&[0, 0]).unwrap(), [Ok(()), Err(Error::ThreadNotSuspended)]);
    });
}

#[test]
fn the_runtime_is_told_of_pops() {
    let (_service, mut running, mut env) = with_thread();
    let frames = [(3, 30), (2, 20), (1, 10)].map(|(method, location)| Frame { method, location });
    running.set_frames(&frames).unwrap();
    assert_eq!(running.frame_count(), 3);
    env.add_capabilities(capabilities::SUSPEND | capabilities::POP_FRAME).unwrap();
    let safe = running.block(Reason::Sleep).unwrap();
    env.suspend_thread(0).unwrap();
    assert_eq!(env.pop_frame(0), Ok(()));
    assert_eq!(env.pop_frame(0), Ok(()));
    assert_eq!(env.get_stack_trace(0, 0, 8).unwrap(), frames[2..]);
    env.resume_thread(0).unwrap();
    let mut running = safe.back();
    assert_eq!(running.set_frames(&frames), Err(Error::Popped));
    assert_eq!(running.frame_count(), 1);
    assert_eq!(running.take_pops(), 2);
    assert_eq!(running.take_pops(), 0);
    running.set_frames(&frames[2..]).unwrap();
    while_polling(&mut running, || assert_eq!(env.get_stack_trace(0, 0, 8).unwrap(), frames[2..]));
    assert_eq!(running.take_pops(), 0);
}

#[test]
fn a_thread_blocks_and_returns() {
    let (_service, running, mut env) = with_thread();
    let Err((error, running)) = running.native() else { panic!("it has no native frame") };
    assert_eq!(error, Error::NoNativeFrame);
    let states = [
        (Reason::MonitorEnter, 0x401),
        (Reason::ObjectWait, 0x191),
        (Reason::TimedWait, 0x1A1),
        (Reason::Sleep, 0xE1),
        (Reason::Park, 0x291),
        (Reason::TimedPark, 0x2A1),
    ];
    let mut running = running;
    for (reason, state) in states {
        let safe = running.block(reason).unwrap();
        assert_eq!(env.get_thread_state(safe.number()), Ok(state));
        running = safe.back();
    }
    env.add_capabilities(capabilities::SUSPEND).unwrap();
    let safe = running.block(Reason::Park).unwrap();
    env.suspend_thread(0).unwrap();
    let began = Instant::now();
    let Err(safe) = safe.back_within(Duration::from_millis(20)) else { panic!("it is suspended") };
    assert!(began.elapsed() >= Duration::from_millis(20));
    env.resume_thread(0).unwrap();
    let ended = safe.back().end();
    assert_eq!(env.get_thread_state(0), Ok(0x2));
    assert!(ended.detach().is_ok());
}

#[test]
fn calls_are_posted_and_collected() {
    let (_service, mut running, mut env) = with_thread();
    running.enter(4).unwrap();
    let Ok(Posted::Waiting(count)) = env.post(0, Call::FrameCount) else { panic!("it runs") };
    let all = Call::StackTrace { start: 0, max_count: 8 };
    let Ok(Posted::Waiting(trace)) = env.post(0, all) else { panic!("it runs") };
    let Ok(Posted::Waiting(location)) = env.post(0, Call::FrameLocation { depth: 1 }) else { panic!("it runs") };
    env.set_timeout(Some(Duration::from_millis(2)));
    let Ok(Posted::Waiting(count)) = env.collect(count) else { panic!("it does not poll") };
    let at = running.poll_word();
    // SAFETY: the thread is not given back before.
    let is_called = || unsafe { &*at.word }.load(SeqCst) & at.mask != 0;
    assert!(!running.poll_clear() && is_called());
    running.poll();
    assert!(running.poll_clear() && !is_called());
    assert!(matches!(env.collect(count), Ok(Posted::Answered(Answer::Count(1)))));
    let frame = Frame { method: 4, location: 0 };
    assert!(matches!(env.collect(trace), Ok(Posted::Answered(Answer::Trace(frames))) if frames == [frame]));
    assert!(matches!(env.collect(location), Err(Error::NoMoreFrames)));
    let Ok(Posted::Waiting(given_up)) = env.post(0, Call::FrameCount) else { panic!("it runs") };
    env.cancel(given_up).unwrap();
    assert!(!env.discard(0));
    assert_eq!(env.get_frame_count(0), Err(Error::TimedOut));
    assert_eq!(env.out_at(0), 2);
    running.poll();
    assert!(env.discard(0) && env.discard(0) && !env.discard(0));
    assert_eq!(env.out_at(0), 0);
    assert_eq!(env.ensure_resumed(0), Err(Error::MustPossessCapability));
}

#[test]
fn a_cancelled_call_tells_what_came_of_it() {
    let (_service, mut running, mut env) = with_thread();
    running.enter(7).unwrap();
    let calls = [Call::FrameLocation { depth: 1 }, Call::StackTrace { start: 0, max_count: 8 }];
    let ids = calls.map(|call| {
        let Ok(Posted::Waiting(ticket)) = env.post(0, call) else { panic!("it runs") };
        let id = ticket.id();
        env.cancel(ticket).unwrap();
        id
    });
    env.set_timeout(Some(Duration::ZERO));
    assert!(matches!(env.collect_cancelled(0, 8), Err(Error::TimedOut)));
    running.poll();
    let first = env.collect_cancelled(0, 8).unwrap().unwrap();
    assert_eq!((first.id, first.took_place()), (ids[0], Err(Error::NoMoreFrames)));
    assert_eq!(first.answer(calls[0]), Err(Error::NoMoreFrames));
    let second = env.collect_cancelled(0, 8).unwrap().unwrap();
    assert_eq!((second.id, second.took_place()), (ids[1], Ok(())));
    let frame = Frame { method: 7, location: 0 };
    assert_eq!(second.answer(calls[1]), Ok(Answer::Trace(vec![frame])));
    assert!(env.collect_cancelled(0, 8).unwrap().is_none());
}

#[test]
fn one_wait_is_for_several_calls() {
    let (mut service, mut running, mut env) = with_thread();
    running.enter(7).unwrap();
    let mut tickets: Vec<Ticket> = [Call::FrameCount, Call::FrameLocation { depth: 1 }]
        .into_iter()
        .map(|call| match env.post(0, call) {
            Ok(Posted::Waiting(ticket)) => ticket,
            other => panic!("it runs: {other:?}"),
        })
        .collect();
    env.set_timeout(Some(Duration::ZERO));
    assert!(matches!(env.wait_any(&mut tickets), Any::TimedOut));
    assert_eq!(tickets.len(), 2);
    running.poll();
    let Any::Answered { index: 0, answer: Ok(Answer::Count(1)) } = env.wait_any(&mut tickets) else {
        panic!("it polled")
    };
    let Any::Answered { index: 0, answer: Err(Error::NoMoreFrames) } = env.wait_any(&mut tickets) else {
        panic!("it polled")
    };
    assert!(tickets.is_empty());
    assert!(matches!(env.wait_any(&mut tickets), Any::TimedOut));
    env.set_timeout(None);
    let _fresh = service.attach_thread("", 5).unwrap();
    assert!(matches!(env.wait_any(&mut tickets), Any::News));
}

#[test]
fn all_stacks_are_of_one_moment() {
    let (mut service, mut running, mut env) = with_thread();
    let mut second = service.attach_thread("second", 5).unwrap().start();
    let fresh = service.attach_thread("fresh", 5).unwrap();
    running.enter(1).unwrap();
    running.at(17).unwrap();
    running.enter(2).unwrap();
    second.enter_native(3).unwrap();
    let Ok(second) = second.native() else { panic!("the newest frame is native") };
    env.meet().unwrap();
    let told = |thread, state, frames: &[(u32, i64)]| StackInfo {
        thread,
        state,
        frames: frames.iter().map(|&(method, location)| Frame { method, location }).collect(),
    };
    while_polling(&mut running, || {
        let all = [told(0, 0x5, &[(2, 0), (1, 17)]), told(1, 0x400005, &[(3, -1)])];
        assert_eq!(env.get_all_stack_traces(8).unwrap(), all);
        let list = [told(2, 0, &[]), told(0, 0x5, &[(2, 0)]), told(1, 0x400005, &[(3, -1)]), told(0, 0x5, &[(2, 0)])];
        assert_eq!(env.get_thread_list_stack_traces(&[2, 0, 1, 0], 1).unwrap(), list);
        assert_eq!(env.get_thread_list_stack_traces(&[], 1), Ok(vec![]));
        assert_eq!(env.get_thread_list_stack_traces(&[0, 3], 1), Err(Error::InvalidThread));
        assert_eq!(env.get_all_stack_traces(-1), Err(Error::IllegalArgument));
    });
    env.set_timeout(Some(Duration::from_millis(20)));
    let began = Instant::now();
    assert_eq!(env.get_all_stack_traces(8), Err(Error::TimedOut));
    assert!(began.elapsed() >= Duration::from_millis(20));
    assert!(running.poll_clear());
    let _second = second.back();
    let _fresh = fresh.start();
    running.leave().unwrap();
}

#[test]
fn words_are_the_environments() {
    let (mut service, _running, mut env) = with_thread();
    let mut other = service.attach_environment().unwrap();
    other.meet().unwrap();
    env.set_thread_local_storage(0, u64::MAX).unwrap();
    assert_eq!(env.get_thread_local_storage(0), Ok(u64::MAX));
    assert_eq!(other.get_thread_local_storage(0), Ok(0));
    env.set_environment_local_storage(3);
    assert_eq!((env.get_environment_local_storage(), other.get_environment_local_storage()), (3, 0));
    assert!(matches!(service.attach_environment(), Err(Error::Full)));
    assert!(other.dispose().is_ok());
    assert!(service.attach_environment().is_ok());
    assert_eq!(env.get_potential_capabilities(), 3);
    env.relinquish_capabilities(3);
    assert_eq!(env.get_capabilities(), 0);
}

#[test]
fn a_runtime_says_what_can_be_had() {
    assert!(matches!(Service::make_with(8, 1, 4, 4), Err(Error::NotAvailable)));
    let mut service = Service::make_with(8, 1, 4, cebdyraq::capabilities::SUSPEND).unwrap();
    let mut env = service.attach_environment().unwrap();
    assert_eq!(env.get_potential_capabilities(), cebdyraq::capabilities::SUSPEND);
    assert!(matches!(env.add_capabilities(3), Err(Error::NotAvailable)));
    assert_eq!(env.get_capabilities(), 0);
    assert!(env.add_capabilities(cebdyraq::capabilities::SUSPEND).is_ok());
}

#[test]
fn threads_come_and_go() {
    let (mut service, running, mut env) = with_thread();
    env.set_event_notification_mode(EventKind::ThreadAttached, true);
    env.set_event_notification_mode(EventKind::ThreadDetached, true);
    env.set_event_notification_mode(EventKind::ClassPrepare, true);
    let mut handle = service.share().unwrap();
    let comer = thread::spawn(move || {
        thread::sleep(Duration::from_millis(20));
        handle.attach_thread("sp\u{e4}t", -1).unwrap()
    });
    assert_eq!(env.next_event(), Ok(Event { kind: EventKind::ThreadAttached, number: 1, lost: 0 }));
    let fresh = comer.join().unwrap();
    assert_eq!(fresh.number(), 1);
    assert_eq!(env.get_all_threads(), Ok(vec![0]));
    assert_eq!(env.get_thread_info(1), Ok(ThreadInfo { name: "sp\u{e4}t".to_owned(), priority: -1 }));
    env.meet().unwrap();
    assert_eq!(env.get_thread_state(1), Ok(0));
    drop(fresh);
    assert!(env.has_news());
    assert_eq!(env.next_event(), Ok(Event { kind: EventKind::ThreadDetached, number: 1, lost: 0 }));
    let definer = thread::spawn(move || {
        thread::sleep(Duration::from_millis(20));
        service.define_class(&ClassInfo::default()).unwrap();
        service
    });
    assert_eq!(env.next_event(), Ok(Event { kind: EventKind::ClassPrepare, number: 0, lost: 0 }));
    let service = definer.join().unwrap();
    env.set_timeout(Some(Duration::ZERO));
    assert_eq!(env.next_event(), Err(Error::TimedOut));
    assert!(env.let_go(1) && !env.let_go(1) && !env.let_go(0));
    assert_eq!(env.get_thread_state(1), Err(Error::ThreadNotAlive));
    drop(service);
    drop(running);
    assert_eq!(env.get_thread_state(0), Ok(0x2));
    assert_eq!(env.get_all_threads(), Ok(vec![]));
    env.let_go_of_all();
    assert_eq!(env.get_thread_state(0), Err(Error::ThreadNotAlive));
}

/// What a client is answered.
fn answer_of(port: u16, target: &str) -> String {
    let mut socket = TcpStream::connect(("127.0.0.1", port)).unwrap();
    write!(socket, "GET {target} HTTP/1.1\r\nHost: localhost\r\nConnection: close\r\n\r\n").unwrap();
    let mut text = String::new();
    socket.read_to_string(&mut text).unwrap();
    text
}

#[test]
fn serves_over_http() {
    let (mut service, running, _env) = with_thread();
    assert!(matches!(service.serve("127.0.0.1", "test"), Err(ServeError::Refused(Error::IllegalArgument))));
    let server = service.serve("127.0.0.1:0", "test").unwrap();
    let port = server.port();
    let ServeError::System(error) = service.serve(&format!("127.0.0.1:{port}"), "test").unwrap_err() else {
        panic!("the system refuses an address that is in use")
    };
    assert_eq!(error.kind(), ErrorKind::AddrInUse);
    let Ok(safe) = running.block(Reason::Sleep) else { panic!("nothing bars it") };
    let text = answer_of(port, "/threads");
    assert!(text.starts_with("HTTP/1.1 200 OK\r\n") && text.contains("\"main\" #0 prio=5 sleeping\n"), "{text}");
    drop(server);
    assert!(TcpStream::connect(("127.0.0.1", port)).is_err());
    drop(safe);
}

#[test]
fn listens_for_debuggers() {
    let (mut service, running, _env) = with_thread();
    assert!(matches!(service.debug_listen("5005", "test", "/src"), Err(ServeError::Refused(Error::IllegalArgument))));
    let server = service.debug_listen("127.0.0.1:0", "test", "/src").unwrap();
    let mut socket = TcpStream::connect(("127.0.0.1", server.port())).unwrap();
    let mut greeting = [0; 14];
    socket.write_all(b"JDWP-Handshake").unwrap();
    socket.read_exact(&mut greeting).unwrap();
    assert_eq!(&greeting, b"JDWP-Handshake");
    drop(server);
    let mut told = Vec::new();
    socket.read_to_end(&mut told).unwrap();
    assert_eq!(told, [0, 0, 0, 21, 0, 0, 0, 0, 0, 64, 100, 0, 0, 0, 0, 1, 99, 0, 0, 0, 0]); // VM_DEATH
    drop(running);
}

#[test]
fn limits_are_checked() {
    assert!(matches!(Service::make(0, 1, 1), Err(Error::IllegalArgument)));
    assert!(matches!(Service::make(1, 33, 1), Err(Error::IllegalArgument)));
    let mut service = Service::make(1, 1, 1).unwrap();
    let mut running = service.attach_thread("", 5).unwrap().start();
    assert_eq!(running.leave(), Err(Error::NoFrame));
    running.enter_native(1).unwrap();
    assert_eq!(running.enter(1), Err(Error::Overflow));
    assert_eq!(running.at(1), Err(Error::NotJavaFrame));
    assert_eq!(running.set_frames(&[Frame { method: 1, location: -2 }]), Err(Error::IllegalArgument));
}
