//! What the programs in Rust share: the manifest reader, written from document 01 by itself, and the run of a command
//! whose output they read.

pub mod manifest;

use std::error::Error;
use std::io::{ErrorKind, Write};
use std::process::{Command, Stdio};

/// What the command prints when it is given the input.
pub fn run(command: &[&str], input: &[u8]) -> Result<String, String> {
    printed(command, input).map_err(|error| format!("{}: {error}", command[0]))
}

fn printed(command: &[&str], input: &[u8]) -> Result<String, Box<dyn Error>> {
    let mut child =
        Command::new(command[0]).args(&command[1..]).stdin(Stdio::piped()).stdout(Stdio::piped()).spawn()?;
    let mut pipe = child.stdin.take().expect("the input is piped");
    // both at once, since either pipe may fill up
    let (sent, output) = std::thread::scope(|scope| {
        let sender = scope.spawn(move || pipe.write_all(input));
        let output = child.wait_with_output();
        (sender.join().expect("the sender does not panic"), output)
    });
    let output = output?;
    if !output.status.success() {
        let lines = output.stdout.iter().filter(|&&byte| byte == b'\n').count();
        return Err(format!("ended with {} after {lines} lines", output.status).into());
    }
    match sent {
        // a program may stop reading once it knows its answer
        Err(error) if error.kind() != ErrorKind::BrokenPipe => Err(error.into()),
        _ => Ok(String::from_utf8(output.stdout)?),
    }
}
