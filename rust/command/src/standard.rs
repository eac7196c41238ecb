//! Standard input and output as files, so that no error of theirs is lost. The standard library's own take a closed
//! descriptor for an empty input, or for an output that takes everything.
use std::ffi::c_int;
use std::fs::File;
use std::io::{self, Write};
use std::mem::ManuallyDrop;
use std::os::fd::FromRawFd;
use std::sync::atomic::{AtomicU8, Ordering};

const INPUT: c_int = 0;
const OUTPUT: c_int = 1;
const F_GETFD: c_int = 1;
const EBADF: c_int = 9;

unsafe extern "C" {
    fn fcntl(descriptor: c_int, command: c_int, ...) -> c_int;
    fn close(descriptor: c_int) -> c_int;
}

/// The bits of the descriptors that were closed when the program was started.
static CLOSED: AtomicU8 = AtomicU8::new(0);

/// Runs before the standard library's start, which opens /dev/null in the place of a closed descriptor.
#[used]
#[unsafe(link_section = ".init_array")]
static BEFORE_MAIN: extern "C" fn() = note_closed;

extern "C" fn note_closed() {
    for descriptor in [INPUT, OUTPUT] {
        // SAFETY: it only asks for a descriptor's flags.
        if unsafe { fcntl(descriptor, F_GETFD) } < 0 {
            CLOSED.fetch_or(1 << descriptor, Ordering::Relaxed);
        }
    }
}

fn file(descriptor: c_int) -> io::Result<ManuallyDrop<File>> {
    if CLOSED.load(Ordering::Relaxed) & (1 << descriptor) != 0 {
        return Err(io::Error::from_raw_os_error(EBADF));
    }
    // SAFETY: the descriptor is open, and the file that would close it is not dropped.
    Ok(ManuallyDrop::new(unsafe { File::from_raw_fd(descriptor) }))
}

pub fn input() -> io::Result<ManuallyDrop<File>> {
    file(INPUT)
}

/// Writes all of the program's output. Some file systems tell of a loss only when a file is closed.
pub fn print(text: &[u8]) -> io::Result<()> {
    file(OUTPUT)?.write_all(text)?;
    // SAFETY: nothing uses the descriptor from here on.
    if unsafe { close(OUTPUT) } < 0 { Err(io::Error::last_os_error()) } else { Ok(()) }
}
