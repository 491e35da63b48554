//! The library in Rust, and a program that prints with it the statistics of Arrow integration files and the groups of a query over them:
//!
//!     tools/library build
//!     rustc -O examples/embed.rs -C link-arg=build/libselqumar.a -o build/embed_rs
//!     build/embed_rs '{"by":["city"],"aggs":[{"agg":"rows"}]}' examples/mixed.json
#![allow(dead_code)]

use std::{env, fs, process};

/// What include/selqumar.h declares.
mod sys {
    use std::ffi::c_void;

    /// The bytes of a file.
    #[repr(C)]
    pub struct Bytes {
        pub data: *const u8,
        pub length: usize,
    }

    /// A table that stays open between calls, or none.
    #[repr(C)]
    pub struct Handle {
        pub is_open: bool,
        pub table: *mut c_void,
    }

    unsafe extern "C" {
        pub fn selqumar_stats(files: *const Bytes, count: usize, out: *mut u8, room: usize, needed: *mut usize) -> u32;
        pub fn selqumar_export(files: *const Bytes, count: usize, out: *mut u8, room: usize, needed: *mut usize) -> u32;
        pub fn selqumar_query(
            files: *const Bytes,
            count: usize,
            query: *const u8,
            query_length: usize,
            out: *mut u8,
            room: usize,
            needed: *mut usize,
        ) -> u32;
        pub fn selqumar_validate(files: *const Bytes, count: usize, out: *mut u8, room: usize, needed: *mut usize) -> u32;
        pub fn selqumar_open(files: *const Bytes, count: usize, handle: *mut Handle, out: *mut u8, room: usize, needed: *mut usize) -> u32;
        pub fn selqumar_open_stats(handle: *mut Handle, workers: u32, out: *mut u8, room: usize, needed: *mut usize) -> u32;
        pub fn selqumar_open_export(handle: *mut Handle, out: *mut u8, room: usize, needed: *mut usize) -> u32;
        pub fn selqumar_open_query(
            handle: *mut Handle,
            query: *const u8,
            query_length: usize,
            out: *mut u8,
            room: usize,
            needed: *mut usize,
        ) -> u32;
        pub fn selqumar_close(handle: *mut Handle);
    }
}

/// Why there is no text.
#[derive(Debug)]
pub enum Fault {
    /// The line that the program would report.
    Line(String),
    NoMemory,
}

/// The length of a buffer to begin with.
const ROOM: usize = 4096;

/// The text of a call, which is made again where its buffer was too short.
fn text_of(room: usize, mut call: impl FnMut(&mut [u8], &mut usize) -> u32) -> Result<String, Fault> {
    let mut out = vec![0; room];
    loop {
        let mut needed = 0;
        let status = call(&mut out, &mut needed);
        match status {
            0 | 1 => {
                out.truncate(needed);
                let text = String::from_utf8(out).expect("each text is UTF-8");
                return if status == 0 { Ok(text) } else { Err(Fault::Line(text)) };
            }
            2 => out = vec![0; needed],
            3 => return Err(Fault::NoMemory),
            _ => unreachable!("a `Table` is open"),
        }
    }
}

fn entries(files: &[&[u8]]) -> Vec<sys::Bytes> {
    files.iter().map(|file| sys::Bytes { data: file.as_ptr(), length: file.len() }).collect()
}

fn length(files: &[&[u8]]) -> usize {
    files.iter().map(|file| file.len()).sum()
}

// Below, pointers and lengths are those of slices, which live until a call returns, and no two of which overlap.

/// What `arrowtab stats` prints of the files.
pub fn stats(files: &[&[u8]]) -> Result<String, Fault> {
    let files = entries(files);
    text_of(ROOM, |out, needed| unsafe { sys::selqumar_stats(files.as_ptr(), files.len(), out.as_mut_ptr(), out.len(), needed) })
}

/// What `arrowtab export` prints of them.
pub fn export(files: &[&[u8]]) -> Result<String, Fault> {
    let room = length(files);
    let files = entries(files);
    text_of(room, |out, needed| unsafe { sys::selqumar_export(files.as_ptr(), files.len(), out.as_mut_ptr(), out.len(), needed) })
}

/// What `arrowtab query` prints of them.
pub fn query(files: &[&[u8]], query: &str) -> Result<String, Fault> {
    let files = entries(files);
    text_of(ROOM, |out, needed| unsafe {
        sys::selqumar_query(files.as_ptr(), files.len(), query.as_ptr(), query.len(), out.as_mut_ptr(), out.len(), needed)
    })
}

/// Whether they can be loaded into one table.
pub fn validate(files: &[&[u8]]) -> Result<(), Fault> {
    let files = entries(files);
    text_of(ROOM, |out, needed| unsafe { sys::selqumar_validate(files.as_ptr(), files.len(), out.as_mut_ptr(), out.len(), needed) }).map(drop)
}

/// Files that are read once. It stays on its thread, since it has a pointer.
pub struct Table {
    handle: sys::Handle,
    length: usize,
}

impl Table {
    pub fn open(files: &[&[u8]]) -> Result<Table, Fault> {
        let mut table = Table { handle: sys::Handle { is_open: false, table: std::ptr::null_mut() }, length: length(files) };
        let files = entries(files);
        text_of(ROOM, |out, needed| unsafe {
            sys::selqumar_open(files.as_ptr(), files.len(), &mut table.handle, out.as_mut_ptr(), out.len(), needed)
        })?;
        Ok(table)
    }

    /// What `arrowtab stats` prints of its files.
    pub fn stats(&mut self) -> Result<String, Fault> {
        text_of(ROOM, |out, needed| unsafe { sys::selqumar_open_stats(&mut self.handle, 1, out.as_mut_ptr(), out.len(), needed) })
    }

    /// What `arrowtab export` prints of them.
    pub fn export(&mut self) -> Result<String, Fault> {
        text_of(self.length, |out, needed| unsafe { sys::selqumar_open_export(&mut self.handle, out.as_mut_ptr(), out.len(), needed) })
    }

    /// What `arrowtab query` prints of them.
    pub fn query(&mut self, query: &str) -> Result<String, Fault> {
        text_of(ROOM, |out, needed| unsafe {
            sys::selqumar_open_query(&mut self.handle, query.as_ptr(), query.len(), out.as_mut_ptr(), out.len(), needed)
        })
    }
}

impl Drop for Table {
    fn drop(&mut self) {
        unsafe { sys::selqumar_close(&mut self.handle) }
    }
}

/// Prints both texts, or none.
fn print(query: &str, files: &[&[u8]]) -> Result<(), Fault> {
    let mut table = Table::open(files)?;
    print!("{}{}", table.stats()?, table.query(query)?);
    Ok(())
}

fn main() {
    let mut words = env::args().skip(1);
    let query = words.next().unwrap_or_default();
    let mut files = Vec::new();
    for name in words {
        match fs::read(&name) {
            Ok(file) => files.push(file),
            Err(fault) => {
                eprintln!("embed_rs: {name}: {fault}");
                process::exit(2);
            }
        }
    }
    let files: Vec<&[u8]> = files.iter().map(Vec::as_slice).collect();
    match print(&query, &files) {
        Ok(()) => {}
        Err(Fault::Line(line)) => {
            eprint!("{line}");
            process::exit(1);
        }
        Err(Fault::NoMemory) => {
            eprintln!("embed_rs: no memory");
            process::exit(1);
        }
    }
}
