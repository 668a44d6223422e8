//! palmheap from Rust. To be copied.
//!
//!     RUSTFLAGS='-L DIR/lib' cargo run -- FILE..
//!
//! prints the listing of each file, or its first fault.

use std::process::ExitCode;

#[repr(C)]
#[derive(Clone, Copy, Debug, PartialEq, Eq)]
pub struct Answer {
    pub kind: u32,
    pub at: u32,
    pub entry: u32,
}

const OK: u32 = 0;
const NO_ROOM: u32 = 2;

#[link(name = "palmheap", kind = "static")]
extern "C" {
    fn palmheap_pdb_check(file: *const u8, file_len: usize) -> Answer;
    fn palmheap_pdb_list(
        file: *const u8,
        file_len: usize,
        text: *mut u8,
        text_len: usize,
        count: *mut usize,
    ) -> Answer;
}

/// Checks whether a database can be read from a file.
pub fn pdb_check(file: &[u8]) -> Result<(), Answer> {
    // SAFETY: the slice is valid, and the function only reads it.
    match unsafe { palmheap_pdb_check(file.as_ptr(), file.len()) } {
        Answer { kind: OK, .. } => Ok(()),
        answer => Err(answer),
    }
}

/// The listing of a file.
pub fn pdb_list(file: &[u8]) -> Result<String, Answer> {
    let mut text = Vec::new();
    let mut count = 0;
    loop {
        // SAFETY: the slices are valid and do not overlap.
        let answer = unsafe {
            palmheap_pdb_list(file.as_ptr(), file.len(), text.as_mut_ptr(), text.len(), &mut count)
        };
        match answer.kind {
            OK => {
                text.truncate(count);
                return Ok(String::from_utf8(text).expect("a listing is UTF-8"));
            }
            NO_ROOM => text.resize(count, 0),
            _ => return Err(answer),
        }
    }
}

fn main() -> ExitCode {
    let mut status = ExitCode::SUCCESS;
    for path in std::env::args().skip(1) {
        match std::fs::read(&path) {
            Ok(file) => match pdb_check(&file).and_then(|()| pdb_list(&file)) {
                Ok(text) => print!("{path}\n{text}"),
                Err(answer) => println!("{path} has a fault of kind {} at {}", answer.kind, answer.at),
            },
            Err(error) => {
                eprintln!("{path}: {error}");
                status = ExitCode::from(3);
            }
        }
    }
    status
}
