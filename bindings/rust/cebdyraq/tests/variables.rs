//! Variables and classes that a server tells a debugger, and threads that wait for it. It speaks the debug wire protocol here.

use cebdyraq::{ClassInfo, DebugOptions, Error, Frame, Lines, MethodInfo, Names, Reason, Server, Service, Values, Variables};
use std::io::{Read, Write};
use std::net::TcpStream;
use std::sync::atomic::{AtomicBool, Ordering::SeqCst};
use std::sync::Arc;

const THREAD: [u8; 8] = [0, 0, 0, 0, 0, 0, 0, 1];
const CLASS: [u8; 8] = [0, 0, 0, 4, 0, 0, 0, 0];
const OBJECT: &str = "Ljava/lang/Object;";
const VARIABLES: (u8, u8) = (6, 5);
const RESUME: (u8, u8) = (1, 9);
const SUSPEND: (u8, u8) = (11, 2);
const STATUS: (u8, u8) = (11, 4);
const WANT: (u8, u8) = (15, 1);
const VALUES: (u8, u8) = (16, 1);

/// The variables of a function `work`, and of one that panics.
struct Work {
    stands: Arc<AtomicBool>,
    _kept: Arc<()>,
}

impl Variables for Work {
    fn of_method(&mut self, method: u32, names: &mut Names<'_>) -> Result<(), Error> {
        assert_eq!(method, 0, "the debugger is told that there are none");
        assert!(names.tell("näme", 3, 9, 4));
        Ok(())
    }

    fn of_frame(&mut self, thread: u32, depth: u32, values: &mut Values<'_>) -> Result<(), Error> {
        assert_eq!((thread, depth), (0, 0));
        if !self.stands.load(SeqCst) {
            return Err(Error::ThreadNotSuspended);
        }
        assert!(values.nil(0) && values.boolean(1, true) && values.integer(2, -2));
        assert!(values.number(3, 1.5) && values.text(4, "text"));
        let mut table = values.table(5).unwrap();
        assert!(table.entry("k = 1") && table.entry(b"\xff"));
        Ok(())
    }
}

struct Debugger(TcpStream);

impl Debugger {
    fn attach(server: &Server) -> Debugger {
        let mut socket = TcpStream::connect(("127.0.0.1", server.port())).unwrap();
        socket.write_all(b"JDWP-Handshake").unwrap();
        socket.read_exact(&mut [0; 14]).unwrap();
        Debugger(socket)
    }

    /// The error and the data of a reply.
    fn ask(&mut self, (set, command): (u8, u8), data: &[&[u8]]) -> (u16, Vec<u8>) {
        let data = data.concat();
        let length = 11 + u32::try_from(data.len()).unwrap();
        let request = [&length.to_be_bytes()[..], &[0, 0, 0, 7, 0, set, command], &data].concat();
        self.0.write_all(&request).unwrap();
        let mut head = [0; 11];
        self.0.read_exact(&mut head).unwrap();
        let mut reply = vec![0; u32::from_be_bytes(head[..4].try_into().unwrap()) as usize - 11];
        self.0.read_exact(&mut reply).unwrap();
        (u16::from_be_bytes([head[9], head[10]]), reply)
    }
}

fn method(number: u8) -> [u8; 8] {
    [0, 0, 0, 6, 0, 0, 0, number]
}

fn service() -> Service {
    let mut service = Service::make(4, 1, 1).unwrap();
    let one =
        |name: &str| MethodInfo { name: name.into(), first_line: 1, lines: Lines::Locations, ..MethodInfo::default() };
    let class = ClassInfo { signature: "Lwork;".into(), source_file: None, methods: vec![one("work"), one("wild")] };
    service.define_class(&class).unwrap();
    service
}

#[test]
fn a_debugger_is_told_of_variables() {
    let (stands, kept) = (Arc::new(AtomicBool::new(false)), Arc::new(()));
    let mut service = service();
    let mut running = service.attach_thread("main", 5).unwrap().start();
    running.set_frames(&[Frame { method: 0, location: 9 }]).unwrap();
    let Ok(safe) = running.block(Reason::Sleep) else { panic!("nothing bars it") };
    let work = Work { stands: stands.clone(), _kept: kept.clone() };
    let options = DebugOptions { variables: Some(Box::new(work)), ..DebugOptions::default() };
    let server = service.debug_listen_with("127.0.0.1:0", "test", "/src", options).unwrap();
    let mut debugger = Debugger::attach(&server);

    let row = [&[0, 0, 0, 0, 0, 0, 0, 1, 0, 0, 0, 0, 0, 0, 0, 9, 0, 0, 0, 5][..], "näme".as_bytes(), &[0, 0, 0, 18]];
    let wanted = [&row.concat(), OBJECT.as_bytes(), &[0, 0, 0, 0, 0, 0, 0, 4, 0, 0, 0, 3]].concat();
    assert_eq!(debugger.ask(VARIABLES, &[&CLASS, &method(0)]), (0, wanted));
    assert_eq!(debugger.ask(VARIABLES, &[&CLASS, &method(1)]), (101, vec![]));

    assert_eq!(debugger.ask(SUSPEND, &[&THREAD]), (0, vec![]));
    let slots = [0, 0, 0, 4, 0, 0, 0, 0, b'L', 0, 0, 0, 1, b'Z', 0, 0, 0, 2, b'J', 0, 0, 0, 3, b'D'];
    let asked: [&[u8]; 3] = [&THREAD, &[0; 8], &slots];
    assert_eq!(debugger.ask(VALUES, &asked), (13, vec![]));
    stands.store(true, SeqCst);
    let values =
        [0, 0, 0, 4, b'L', 0, 0, 0, 0, 0, 0, 0, 0, b'Z', 1, b'J', 255, 255, 255, 255, 255, 255, 255, 254, b'D'];
    assert_eq!(debugger.ask(VALUES, &asked), (0, [&values[..], &1.5f64.to_be_bytes()].concat()));

    drop(server);
    assert_eq!(Arc::strong_count(&kept), 1);
    drop(safe);
}

#[test]
fn threads_wait_for_their_first_debugger() {
    let mut service = service();
    let running = service.attach_thread("main", 5).unwrap().start();
    let Ok(safe) = running.block(Reason::Sleep) else { panic!("nothing bars it") };
    let options = DebugOptions { starts_suspended: true, ..DebugOptions::default() };
    let server = service.debug_listen_with("127.0.0.1:0", "test", "/src", options).unwrap();
    std::thread::scope(|scope| {
        let waiter = scope.spawn(|| server.await_resumption());
        let mut debugger = Debugger::attach(&server);
        let mut began = [0; 29];
        debugger.0.read_exact(&mut began).unwrap();
        assert_eq!(began[11..], [2, 0, 0, 0, 1, 90, 0, 0, 0, 0, 0, 0, 0, 0, 0, 0, 0, 1]);
        assert!(!waiter.is_finished());
        assert_eq!(debugger.ask(RESUME, &[]), (0, vec![]));
        waiter.join().unwrap().unwrap();
    });
    drop(server);
    drop(safe);
}

#[test]
fn classes_are_told_before_their_thread_goes_on() {
    let mut service = service();
    let running = service.attach_thread("main", 5).unwrap().start();
    let Ok(safe) = running.block(Reason::Sleep) else { panic!("nothing bars it") };
    let server = service.debug_listen("127.0.0.1:0", "test", "/src").unwrap();
    server.tell_classes().unwrap();
    let mut debugger = Debugger::attach(&server);
    assert_eq!(debugger.ask(WANT, &[&[8, 2, 0, 0, 0, 0]]), (0, vec![0, 0, 0, 1]));
    let late = ClassInfo { signature: "Llate;".into(), source_file: None, methods: vec![] };
    service.define_class(&late).unwrap();
    server.tell_classes().unwrap();
    let mut told = [0; 52];
    debugger.0.read_exact(&mut told).unwrap();
    let head = [&[2, 0, 0, 0, 1, 8, 0, 0, 0, 1][..], &THREAD, &[1, 0, 0, 0, 4, 0, 0, 0, 1, 0, 0, 0, 6]].concat();
    assert_eq!(told[11..42], head);
    assert_eq!(told[42..], *b"Llate;\0\0\0\x07");
    assert_eq!(debugger.ask(STATUS, &[&THREAD]).1[4..], [0, 0, 0, 1]);
    assert_eq!(debugger.ask(RESUME, &[]), (0, vec![]));
    drop(server);
    drop(safe);
}
