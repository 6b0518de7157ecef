//! Whether standard output was closed when the program began.
//!
//! The standard library opens the null device in its place before `main`, so that an answer would be lost without a word. It
//! can be seen only earlier, by a function that the linker is told to run first.
#![allow(unsafe_code)]

use std::sync::atomic::{AtomicBool, Ordering};

static CLOSED: AtomicBool = AtomicBool::new(false);

pub fn output_was_closed() -> bool {
    CLOSED.load(Ordering::Relaxed)
}

#[cfg(target_os = "linux")]
mod linux {
    use super::{CLOSED, Ordering};

    unsafe extern "C" {
        fn fcntl(file: i32, command: i32, ...) -> i32;
    }

    const STANDARD_OUTPUT: i32 = 1;
    const GET_FLAGS: i32 = 1;

    extern "C" fn look() {
        // SAFETY: the call reads the flags of a file's number, whether there is such a file or not, and changes nothing.
        let flags = unsafe { fcntl(STANDARD_OUTPUT, GET_FLAGS) };
        CLOSED.store(flags == -1, Ordering::Relaxed);
    }

    // SAFETY: the functions of this part of the program are called once, without arguments that must be read, before `main`.
    #[used]
    #[unsafe(link_section = ".init_array")]
    static LOOK: extern "C" fn() = look;
}
