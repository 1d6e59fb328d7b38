//! Reads an input, and prints what its run tells.
use std::io::{Read, Write, stdin, stdout};
use std::process::ExitCode;

unsafe extern "C" {
    // As simplex.h says.
    fn simplex_run(input: *const u8, length: usize, text: *mut u8, room: usize, size: *mut usize) -> u8;
}

/// What the run of the input tells, and its status.
fn run(input: &[u8]) -> (Vec<u8>, u8) {
    let mut text = vec![0; 65_536];
    loop {
        let mut size = 0;
        // SAFETY: both slices and the place are borrowed for the call, and none of them lies in another.
        let status = unsafe {
            simplex_run(input.as_ptr(), input.len(), text.as_mut_ptr(), text.len(), &mut size)
        };
        if size <= text.len() {
            text.truncate(size);
            return (text, status);
        }
        text.resize(size, 0);
    }
}

fn main() -> ExitCode {
    let mut input = Vec::new();
    if stdin().read_to_end(&mut input).is_err() {
        return ExitCode::from(5);
    }
    let (text, status) = run(&input);
    if stdout().write_all(&text).is_err() {
        return ExitCode::from(6);
    }
    ExitCode::from(status)
}
