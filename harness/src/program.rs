//! Runs a program on bytes of standard input and takes what it writes.

use std::io::{Read, Write};
use std::path::Path;
use std::process::{Child, Command, Stdio};
use std::sync::mpsc::{channel, Receiver};
use std::thread;
use std::time::Duration;

/// A program that does not end within this time has gone astray.
const LONGEST: Duration = Duration::from_secs(30);

#[derive(Clone, Debug, PartialEq, Eq)]
pub struct Outcome {
    /// The exit status; none if a signal ended the program.
    pub status: Option<i32>,
    pub output: Vec<u8>,
    pub complaint: Vec<u8>,
}

/// What the program does with the input, or why that is not known.
pub fn run(program: &Path, input: &[u8]) -> Result<Outcome, String> {
    let mut child = start(program)?;
    feed(&mut child, input);
    let output = collect(child.stdout.take());
    let complaint = collect(child.stderr.take());
    let written =
        output.recv_timeout(LONGEST).and_then(|output| Ok((output, complaint.recv_timeout(LONGEST)?)));
    let Ok((output, complaint)) = written else {
        let _ = child.kill();
        let _ = child.wait();
        return Err(format!("no end within {} seconds", LONGEST.as_secs()));
    };
    let status = child.wait().map_err(|error| error.to_string())?.code();
    Ok(Outcome { status, output, complaint })
}

fn start(program: &Path) -> Result<Child, String> {
    let mut command = Command::new(program);
    command.stdin(Stdio::piped()).stdout(Stdio::piped()).stderr(Stdio::piped());
    command.spawn().map_err(|error| format!("{}: {error}", program.display()))
}

/// Feeds beside the reading, so that neither side waits for the other.
/// A program may stop reading early: that is no fault by itself.
fn feed(child: &mut Child, input: &[u8]) {
    let input = input.to_vec();
    if let Some(mut pipe) = child.stdin.take() {
        thread::spawn(move || drop(pipe.write_all(&input)));
    }
}

fn collect(pipe: Option<impl Read + Send + 'static>) -> Receiver<Vec<u8>> {
    let (sender, receiver) = channel();
    thread::spawn(move || {
        let mut bytes = Vec::new();
        if let Some(mut pipe) = pipe {
            let _ = pipe.read_to_end(&mut bytes);
        }
        let _ = sender.send(bytes);
    });
    receiver
}
