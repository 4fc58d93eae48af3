use crate::environment::Environment;
use crate::error::{checked, Error};
use crate::service::Service;
use cebdyraq_sys as sys;
use std::thread::yield_now;

/// An entry of a table of lines: from this location on, up to that of the next entry, a method is at this line.
pub use sys::cq_line_entry as LineEntry;

/// A class with its methods: a Java class, or whatever of a program comes at once, as a chunk, a module or a file.
#[derive(Clone, Debug, Default, PartialEq, Eq)]
pub struct ClassInfo {
    /// As in `Ljava/lang/Object;`. Two classes may have the same.
    pub signature: String,
    /// The name of the file that it was read from. An empty name is none.
    pub source_file: Option<String>,
    pub methods: Vec<MethodInfo>,
}

/// A method of a class.
#[derive(Clone, Debug, Default, PartialEq, Eq)]
pub struct MethodInfo {
    pub name: String,
    /// As in `(I)V`.
    pub signature: String,
    /// The line at which it is defined, or 0 if it is not known.
    pub first_line: u32,
    pub lines: Lines,
}

/// What is known of a method's lines.
#[derive(Clone, Debug, Default, PartialEq, Eq)]
pub enum Lines {
    #[default]
    Absent,
    /// A location is its line.
    Locations,
    Table(Vec<LineEntry>),
    /// The method is native, and has none.
    Native,
}

/// The numbers of a class that was defined.
#[derive(Clone, Copy, Debug, PartialEq, Eq, Hash)]
pub struct Defined {
    pub class: u32,
    /// That of its first method, which the others follow.
    pub first_method: u32,
}

/// A method's name, its signature, and the line at which it is defined.
#[derive(Clone, Debug, PartialEq, Eq)]
pub struct MethodName {
    pub name: String,
    pub signature: String,
    pub first_line: u32,
}

/// All texts and line entries of a class, one after another.
#[derive(Default)]
struct Parts {
    text: Vec<u8>,
    entries: Vec<LineEntry>,
}

impl Parts {
    fn put_text(&mut self, text: &str) -> sys::cq_range {
        let start = self.text.len();
        self.text.extend_from_slice(text.as_bytes());
        sys::cq_range { start, length: text.len() }
    }

    fn put_lines(&mut self, lines: &Lines) -> (u32, sys::cq_range) {
        let start = self.entries.len();
        let kind = match lines {
            Lines::Absent => sys::CQ_LINES_ABSENT,
            Lines::Locations => sys::CQ_LINES_LOCATIONS,
            Lines::Table(table) => {
                self.entries.extend_from_slice(table);
                sys::CQ_LINES_TABLE
            }
            Lines::Native => sys::CQ_LINES_NATIVE,
        };
        (kind, sys::cq_range { start, length: self.entries.len() - start })
    }

    fn put_method(&mut self, method: &MethodInfo) -> sys::cq_method_ranges {
        let name = self.put_text(&method.name);
        let signature = self.put_text(&method.signature);
        let (lines_kind, lines) = self.put_lines(&method.lines);
        sys::cq_method_ranges { name, signature, lines, lines_kind, first_line: method.first_line }
    }
}

/// Calls again as long as a class is just being defined.
pub(crate) fn settled(mut call: impl FnMut() -> u32) -> Result<(), Error> {
    loop {
        match call() {
            sys::CQ_BUSY => yield_now(),
            code => return checked(code),
        }
    }
}

fn text_of(bytes: Vec<u8>) -> String {
    String::from_utf8(bytes).expect("a text is UTF-8")
}

impl Service {
    /// Defines a class with its methods. From then on each environment of the service is told of it, and those are woken that wait for
    /// [`EventKind::ClassPrepare`](crate::EventKind::ClassPrepare).
    ///
    /// [`Error::Full`] if there would be 2^32 classes or methods.
    pub fn define_class(&mut self, class: &ClassInfo) -> Result<Defined, Error> {
        let mut parts = Parts::default();
        let ranges = sys::cq_class_ranges {
            signature: parts.put_text(&class.signature),
            source_file: parts.put_text(class.source_file.as_deref().unwrap_or_default()),
        };
        let methods: Vec<_> = class.methods.iter().map(|method| parts.put_method(method)).collect();
        let mut defined = Defined { class: 0, first_method: 0 };
        // SAFETY: this call alone uses the handle, and each pointer leads to memory of the size that is given.
        settled(|| unsafe {
            sys::cq_define_class(
                &mut *self.handle,
                parts.text.as_ptr(),
                parts.text.len(),
                &ranges,
                methods.as_ptr(),
                methods.len(),
                parts.entries.as_ptr(),
                parts.entries.len(),
                &mut defined.class,
                &mut defined.first_method,
            )
        })?;
        // SAFETY: it is used by atomic steps alone.
        unsafe { sys::cq_wake(self.signal.at()) };
        Ok(defined)
    }
}

/// Asks with more room until all is there.
fn whole<T: Clone + Default>(mut call: impl FnMut(*mut T, usize, &mut u64) -> u32) -> Result<Vec<T>, Error> {
    let mut room = vec![T::default(); 64];
    loop {
        let mut count = 0;
        settled(|| call(room.as_mut_ptr(), room.len(), &mut count))?;
        let is_whole = count as usize <= room.len();
        room.resize(count as usize, T::default());
        if is_whole {
            return Ok(room);
        }
    }
}

// SAFETY of all calls below: as in environment.rs.
impl Environment {
    /// GetLoadedClasses: the numbers of all classes, in rising order.
    pub fn get_loaded_classes(&mut self) -> Result<Vec<u32>, Error> {
        whole(|at, room, count| unsafe { sys::cq_get_loaded_classes(self.at(), at, room, count) })
    }

    /// GetClassSignature.
    pub fn get_class_signature(&mut self, class: u32) -> Result<String, Error> {
        let text =
            whole(|at, room, length| unsafe { sys::cq_get_class_signature(self.at(), class, at, room, length) })?;
        Ok(text_of(text))
    }

    /// GetSourceFileName. [`Error::AbsentInformation`] if the class was defined without one.
    pub fn get_source_file_name(&mut self, class: u32) -> Result<String, Error> {
        let text =
            whole(|at, room, length| unsafe { sys::cq_get_source_file_name(self.at(), class, at, room, length) })?;
        Ok(text_of(text))
    }

    /// GetClassMethods: the numbers of its methods, in the order in which they were given.
    pub fn get_class_methods(&mut self, class: u32) -> Result<Vec<u32>, Error> {
        whole(|at, room, count| unsafe { sys::cq_get_class_methods(self.at(), class, at, room, count) })
    }

    /// GetMethodName, with the line at which the method is defined.
    pub fn get_method_name(&mut self, method: u32) -> Result<MethodName, Error> {
        let (mut name, mut signature) = (vec![0; 64], vec![0; 64]);
        loop {
            let mut info = sys::cq_method_name::default();
            let rooms = (name.len(), signature.len());
            settled(|| unsafe {
                let (name, signature) = (name.as_mut_ptr(), signature.as_mut_ptr());
                sys::cq_get_method_name(self.at(), method, &mut info, name, rooms.0, signature, rooms.1)
            })?;
            name.resize(info.name_length as usize, 0);
            signature.resize(info.signature_length as usize, 0);
            if name.len() <= rooms.0 && signature.len() <= rooms.1 {
                let first_line = info.first_line;
                return Ok(MethodName { name: text_of(name), signature: text_of(signature), first_line });
            }
        }
    }

    /// GetMethodDeclaringClass.
    pub fn get_method_declaring_class(&mut self, method: u32) -> Result<u32, Error> {
        let mut class = 0;
        settled(|| unsafe { sys::cq_get_method_declaring_class(self.at(), method, &mut class) })?;
        Ok(class)
    }

    /// IsMethodNative.
    pub fn is_method_native(&mut self, method: u32) -> Result<bool, Error> {
        let mut native = false;
        settled(|| unsafe { sys::cq_is_method_native(self.at(), method, &mut native) })?;
        Ok(native)
    }

    /// GetLineNumberTable: [`Lines::Locations`] or [`Lines::Table`].
    ///
    /// [`Error::NativeMethod`] if the method is native, otherwise [`Error::AbsentInformation`] if it was defined without
    /// lines.
    pub fn get_line_number_table(&mut self, method: u32) -> Result<Lines, Error> {
        let mut kind = sys::CQ_LINES_ABSENT;
        let table = whole(|at, room, count| unsafe {
            sys::cq_get_line_number_table(self.at(), method, &mut kind, at, room, count)
        })?;
        Ok(if kind == sys::CQ_LINES_LOCATIONS { Lines::Locations } else { Lines::Table(table) })
    }
}
