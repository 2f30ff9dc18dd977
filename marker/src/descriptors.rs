//! Whether standard input and output were open when the program was started. The runtime opens /dev/null in the place of one that was not, and
//! what is read or written there is lost without a word; so they are asked before the runtime begins.
use std::ffi::c_int;
use std::fs::File;
use std::io;
use std::mem::ManuallyDrop;
use std::os::fd::FromRawFd;
use std::sync::atomic::{AtomicI32, Ordering};

/// The error of each, or 0.
static ERRORS: [AtomicI32; 2] = [AtomicI32::new(0), AtomicI32::new(0)];

const GET_FLAGS: c_int = 1;

unsafe extern "C" {
    fn fcntl(fd: c_int, command: c_int, ...) -> c_int;
}

extern "C" fn look() {
    for (fd, error) in ERRORS.iter().enumerate() {
        // SAFETY: this asks for the descriptor's flags, and takes no further argument.
        if unsafe { fcntl(fd as c_int, GET_FLAGS) } < 0 {
            error.store(io::Error::last_os_error().raw_os_error().unwrap_or(0), Ordering::Relaxed);
        }
    }
}

#[used]
#[cfg_attr(target_os = "linux", unsafe(link_section = ".init_array"))]
static LOOK: extern "C" fn() = look;

/// Standard input (0) or output (1) as a file, which stays open. `Stdin` and `Stdout` take one that is not open for reading or writing for an
/// empty one, or one that takes everything.
pub fn file(fd: c_int) -> io::Result<ManuallyDrop<File>> {
    match ERRORS[fd as usize].load(Ordering::Relaxed) {
        // SAFETY: nobody closes these two, this file neither.
        0 => Ok(ManuallyDrop::new(unsafe { File::from_raw_fd(fd) })),
        error => Err(io::Error::from_raw_os_error(error)),
    }
}
