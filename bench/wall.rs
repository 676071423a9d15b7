//! `wall INPUT PROGRAM` runs the program once, with the file as standard input and its output thrown away, and prints the wall time in
//! milliseconds.

use std::fs::File;
use std::process::{Command, Stdio};
use std::time::Instant;

fn main() {
    let arguments: Vec<String> = std::env::args().collect();
    let [_, input, program] = &arguments[..] else {
        panic!("usage: wall INPUT PROGRAM");
    };
    let mut command = Command::new(program);
    command
        .stdin(File::open(input).expect("the input"))
        .stdout(Stdio::null());
    let start = Instant::now();
    let status = command.status().expect("the program");
    let elapsed = start.elapsed();
    assert!(status.success(), "{program}: {status}");
    println!("{:.2}", elapsed.as_secs_f64() * 1e3);
}
