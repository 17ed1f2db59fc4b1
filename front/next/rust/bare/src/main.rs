//! The engine in a program that has neither `std` nor an allocator: job J of the scope paper, in arrays on the stack. It
//! prints what the program `listing` prints. Of the C library it uses the start of a program, `write` and `abort`.
#![no_std]
#![no_main]

use abe::{Work, FILES_WORDS, INDEXES_WORDS, RESULT_WORDS, SETS_WORDS};
use core::fmt::{self, Write};

#[link(name = "c")]
extern "C" {
    fn write(file: i32, bytes: *const u8, length: usize) -> isize;
    fn abort() -> !;
}

#[panic_handler]
fn panic(_: &core::panic::PanicInfo) -> ! {
    // SAFETY: `abort` takes nothing and does not return.
    unsafe { abort() }
}

/// The `core` of the toolchain is built for unwinding and names it; nothing unwinds here, so it is never called.
#[no_mangle]
pub extern "C" fn rust_eh_personality() {}

/// Standard output.
struct Output;

impl Write for Output {
    fn write_str(&mut self, text: &str) -> fmt::Result {
        // SAFETY: the pointer and the length are those of a live slice, which `write` only reads.
        let written = unsafe { write(1, text.as_ptr(), text.len()) };
        if written == text.len() as isize {
            Ok(())
        } else {
            Err(fmt::Error)
        }
    }
}

/// Two tables: pan; sample, pan, tenths of Brix.
const DATA: [i32; 21] = [2, 1, 4, 3, 4, 1, 2, 3, 2, 11, 1, 910, 12, 1, 913, 13, 2, 905, 14, 2, 905];
const QUESTION: &[u8] = b"BK\xffRW\0\x01\x02\0\0\0\0\0\0\0\0\
    OL\x02\x02\0\0\0\0\0\0\0\0\x04\x04\x01\x01\0\0\0\0\0\
    BK\0RW\x01\x03\x02\x01\0\0\0\0\0\0\0\x03\0\0\0\0\0\0\0\0\x02\x02\0\0\0\0\0\0\0\
    OL\x02\x02\x01\0\0\0\0\0\0\0\x02\x02\0\0\0\0\0\0\0EN";
const PLAN: &[u8] = b"PL\0\0PL\x02\x01";

/// The lines of the answer, or the refusal in words.
fn print(budget: u64) -> fmt::Result {
    let (mut sets, mut files) = ([0; SETS_WORDS], [0; FILES_WORDS]);
    let (mut indexes, mut result) = ([0; INDEXES_WORDS], [0; RESULT_WORDS]);
    let mut work = Work { sets: &mut sets, files: &mut files, indexes: &mut indexes };
    let answer = match work.run(&DATA, QUESTION, PLAN, budget, &mut result) {
        Ok(answer) => answer,
        Err(refusal) => return writeln!(Output, "no {}: {refusal}", refusal.number()),
    };
    writeln!(Output, "ok {} {} {}", answer.rows().len(), answer.columns(), answer.trials())?;
    answer.rows().try_for_each(|row| writeln!(Output, "{row}"))
}

/// The C library calls it.
#[no_mangle]
pub extern "C" fn main() -> i32 {
    let printed = print(8).and_then(|()| print(7));
    i32::from(printed.is_err())
}
