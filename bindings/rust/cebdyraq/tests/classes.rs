//! Classes that a runtime defines, and what an environment is told of them.

use cebdyraq::{ClassInfo, Defined, Environment, Error, LineEntry, Lines, MethodInfo, MethodName, Service};
use std::thread;

fn service() -> (Service, Environment) {
    let mut service = Service::make(4, 1, 1).unwrap();
    let env = service.attach_environment().unwrap();
    (service, env)
}

fn method(name: &str, signature: &str, first_line: u32, lines: Lines) -> MethodInfo {
    MethodInfo { name: name.into(), signature: signature.into(), first_line, lines }
}

fn table(lines: &[(u32, u32)]) -> Lines {
    Lines::Table(lines.iter().map(|&(start_location, line_number)| LineEntry { start_location, line_number }).collect())
}

fn fib() -> ClassInfo {
    ClassInfo {
        signature: "Lfib;".into(),
        source_file: Some("fib.java".into()),
        methods: vec![
            method("fib", "(I)I", 3, table(&[(0, 3), (4, 5)])),
            method("main", "()V", 8, table(&[(0, 9)])),
            method("näme", "", 0, Lines::Native),
        ],
    }
}

#[test]
fn what_is_defined_is_told() {
    let (mut service, mut env) = service();
    assert_eq!(env.get_loaded_classes(), Ok(vec![]));
    assert_eq!(service.define_class(&fib()), Ok(Defined { class: 0, first_method: 0 }));
    assert_eq!(env.get_loaded_classes(), Ok(vec![0]));
    assert_eq!(env.get_class_signature(0), Ok("Lfib;".into()));
    assert_eq!(env.get_source_file_name(0), Ok("fib.java".into()));
    assert_eq!(env.get_class_methods(0), Ok(vec![0, 1, 2]));
    let name = MethodName { name: "fib".into(), signature: "(I)I".into(), first_line: 3 };
    assert_eq!(env.get_method_name(0), Ok(name));
    assert_eq!(env.get_method_name(2).unwrap().name, "näme");
    assert_eq!(env.get_method_declaring_class(2), Ok(0));
    assert_eq!((env.is_method_native(1), env.is_method_native(2)), (Ok(false), Ok(true)));
    assert_eq!(env.get_line_number_table(0), Ok(table(&[(0, 3), (4, 5)])));
    assert_eq!(env.get_line_number_table(1), Ok(table(&[(0, 9)])));
    assert_eq!(env.get_line_number_table(2), Err(Error::NativeMethod));
}

#[test]
fn a_late_class_has_numbers_of_its_own() {
    let (mut service, mut env) = service();
    service.define_class(&fib()).unwrap();
    let late = ClassInfo {
        signature: "Lfib;".into(),
        source_file: None,
        methods: vec![method("late", "", 0, Lines::Locations), method("", "", 0, Lines::Absent)],
    };
    assert_eq!(service.share().unwrap().define_class(&late), Ok(Defined { class: 1, first_method: 3 }));
    assert_eq!(env.get_class_signature(1), Ok("Lfib;".into()));
    assert_eq!(env.get_source_file_name(1), Err(Error::AbsentInformation));
    assert_eq!(env.get_line_number_table(3), Ok(Lines::Locations));
    assert_eq!(env.get_line_number_table(4), Err(Error::AbsentInformation));
    assert_eq!(env.get_method_declaring_class(0), Ok(0));
}

#[test]
fn unknown_numbers_are_refused() {
    let (mut service, mut env) = service();
    service.define_class(&fib()).unwrap();
    assert_eq!(env.get_class_signature(1), Err(Error::InvalidClass));
    assert_eq!(env.get_source_file_name(1), Err(Error::InvalidClass));
    assert_eq!(env.get_class_methods(u32::MAX), Err(Error::InvalidClass));
    assert_eq!(env.get_method_name(3), Err(Error::InvalidMethodid));
    assert_eq!(env.get_method_declaring_class(3), Err(Error::InvalidMethodid));
    assert_eq!(env.is_method_native(3), Err(Error::InvalidMethodid));
    assert_eq!(env.get_line_number_table(u32::MAX), Err(Error::InvalidMethodid));
}

/// More than the room with which a call begins.
#[test]
fn long_texts_and_lists_are_whole() {
    let (mut service, mut env) = service();
    let (long, other) = ("é".repeat(100), "x".repeat(65));
    let lines: Vec<_> = (0..70).map(|i| (i, 2 * i)).collect();
    let class = ClassInfo {
        signature: long.clone(),
        source_file: Some(other.clone()),
        methods: (0..80).map(|_| method(&other, &long, 1, table(&lines))).collect(),
    };
    for i in 0..66 {
        assert_eq!(service.define_class(&class), Ok(Defined { class: i, first_method: 80 * i }));
    }
    assert_eq!(env.get_loaded_classes(), Ok((0..66).collect()));
    assert_eq!(env.get_class_signature(65), Ok(long.clone()));
    assert_eq!(env.get_source_file_name(65), Ok(other.clone()));
    assert_eq!(env.get_class_methods(1), Ok((80..160).collect()));
    assert_eq!(env.get_method_name(80), Ok(MethodName { name: other, signature: long, first_line: 1 }));
    assert_eq!(env.get_line_number_table(80), Ok(table(&lines)));
}

/// Threads that define at the same time, each by a handle of its own.
#[test]
fn threads_define_at_the_same_time() {
    let (mut service, mut env) = service();
    thread::scope(|scope| {
        for _ in 0..2 {
            let mut handle = service.share().unwrap();
            scope.spawn(move || {
                for _ in 0..200 {
                    handle.define_class(&fib()).unwrap();
                }
            });
        }
        while env.get_loaded_classes().unwrap().len() < 400 {
            let Some(class) = env.get_loaded_classes().unwrap().pop() else { continue };
            assert_eq!(env.get_class_methods(class).unwrap().len(), 3);
        }
    });
    assert_eq!(env.get_class_methods(399), Ok(vec![1197, 1198, 1199]));
}
