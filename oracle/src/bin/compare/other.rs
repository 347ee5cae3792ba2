//! The other side: a program given its input whole, and all that it prints.

use std::io::{Read, Write};
use std::process::{Command, Stdio, exit};
use std::sync::mpsc::channel;
use std::thread;
use std::time::Duration;

/// A side that is silent for so long counts as ended there.
const PATIENCE: Duration = Duration::from_secs(30);

pub fn run(path: &str, input: Vec<u8>) -> Vec<u8> {
    let command = Command::new(path).stdin(Stdio::piped()).stdout(Stdio::piped()).stderr(Stdio::null()).spawn();
    let mut child = command.unwrap_or_else(|error| {
        eprintln!("{path}: {error}");
        exit(2)
    });
    let mut to = child.stdin.take().unwrap();
    let mut from = child.stdout.take().unwrap();

    // A side that ends early closes its input; what it printed is judged all the same.
    thread::spawn(move || drop(to.write_all(&input)));
    let (sender, receiver) = channel();
    thread::spawn(move || {
        let mut piece = vec![0; 1 << 16];
        while let Ok(length @ 1..) = from.read(&mut piece) {
            let _ = sender.send(piece[..length].to_vec());
        }
    });
    let mut output = Vec::new();
    while let Ok(piece) = receiver.recv_timeout(PATIENCE) {
        output.extend(piece);
    }
    let _ = child.kill();
    let _ = child.wait();
    output
}
