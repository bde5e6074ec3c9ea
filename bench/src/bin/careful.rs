//! The journal program in careful Rust: standard input to standard output.

use std::fs::File;
use std::io::{stdin, stdout, Result};
use std::os::fd::AsFd;

fn main() -> Result<()> {
    // As files, past the small buffers of the standard streams.
    let mut input = File::from(stdin().as_fd().try_clone_to_owned()?);
    let mut output = File::from(stdout().as_fd().try_clone_to_owned()?);
    bench::journal::run(&mut input, &mut output)
}
