//! Runs a program with its standard streams in files, and prints processor seconds, greatest resident kilobytes and
//! exit status: 256 and the signal for one that was ended, as it is after the limit of seconds. It is a small
//! process, because a child is told to have held what its parent did.
use std::fs::File;
use std::process::{Command, Stdio};
use std::time::Duration;

#[repr(C)]
#[derive(Default)]
struct Usage {
    utime: [i64; 2],
    stime: [i64; 2],
    maxrss: i64,
    rest: [i64; 13],
}

extern "C" {
    fn wait4(pid: i32, status: *mut i32, options: i32, usage: *mut Usage) -> i32;
    fn kill(pid: i32, signal: i32) -> i32;
}

pub fn time(limit: u64, input: &str, output: &str, program: &str, args: &[String]) {
    let stdin = File::open(input).expect("input");
    let stdout = File::create(output).expect("output");
    let child = Command::new(program)
        .args(args)
        .stdin(Stdio::from(stdin))
        .stdout(Stdio::from(stdout))
        .spawn()
        .expect("program");
    let pid = child.id() as i32;
    std::thread::spawn(move || {
        std::thread::sleep(Duration::from_secs(limit));
        // SAFETY: This program ends as soon as the child was waited for, so the number is still the child's.
        unsafe { kill(pid, 9) };
    });
    let mut status = 0;
    let mut usage = Usage::default();
    // SAFETY: Both places outlive the call, and `Usage` is the kernel's `rusage`.
    unsafe { wait4(pid, &mut status, 0, &mut usage) };
    let seconds = |t: [i64; 2]| t[0] as f64 + t[1] as f64 / 1e6;
    let code = if status & 0x7f == 0 { status >> 8 & 0xff } else { 256 + (status & 0x7f) };
    println!("{:.6} {} {code}", seconds(usage.utime) + seconds(usage.stime), usage.maxrss);
}
