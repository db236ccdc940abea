//! Runs a program, and tells what it took.

use crate::calls::wait_for;
use std::os::unix::process::CommandExt;
use std::process::{Command, Stdio};
use std::time::Instant;

/// Prints the status of the program that the words name, the milliseconds by the clock and of the processor, and the
/// KiB of its largest process. What it prints is dropped.
pub fn run(words: &[String]) {
    let mut command = Command::new(&words[0]);
    command.args(&words[1..]).stdin(Stdio::null()).stdout(Stdio::null());
    // (so that it begins by a fork: otherwise the size of this process counts as that of the program)
    unsafe { command.pre_exec(|| Ok(())) };
    let start = Instant::now();
    let child = command.spawn().unwrap_or_else(|error| panic!("{}: {error}", words[0]));
    let (status, processor, most) = wait_for(child.id());
    let clock = start.elapsed().as_secs_f64() * 1e3;
    println!("{status}\t{clock}\t{}\t{most}", processor.as_secs_f64() * 1e3);
}
