//! Running a program so that each of its writes is seen: its standard output is
//! a datagram socket, in which every write is a message of its own.

use lafindry_entries::Failure;
use std::io::{Error, ErrorKind};
use std::os::fd::OwnedFd;
use std::os::unix::net::UnixDatagram;
use std::path::Path;
use std::process::{Command, Stdio};
use std::thread::sleep;
use std::time::{Duration, Instant};

/// How long a program may take.
const PATIENCE: Duration = Duration::from_secs(60);

/// How long to wait for messages before looking again.
const PAUSE: Duration = Duration::from_micros(200);

/// More bytes than a program should ever write at once: a longer message is cut
/// off there.
const MOST_AT_ONCE: usize = 1 << 18;

/// Runs a program in a folder, and gives what it wrote to its standard output,
/// one write after the other. Fails unless it ends by itself, with status 0.
pub fn writes_of(program: &Path, folder: &Path, input: Stdio) -> Result<Vec<Vec<u8>>, Failure> {
    let failure = |text: String| Failure(format!("{}: {text}", program.display()));
    let told = |error: Error| failure(error.to_string());
    let (ours, theirs) = UnixDatagram::pair().map_err(told)?;
    ours.set_nonblocking(true).map_err(told)?;
    let output = Stdio::from(OwnedFd::from(theirs));
    let mut command = Command::new(program);
    let mut child = command.current_dir(folder).stdin(input).stdout(output).spawn().map_err(told)?;
    let start = Instant::now();
    let (mut writes, mut buffer) = (Vec::new(), vec![0; MOST_AT_ONCE]);
    loop {
        // Asked first, since all it wrote is in the socket once it has ended.
        let ended = child.try_wait().map_err(told)?;
        take_messages(&ours, &mut buffer, &mut writes).map_err(told)?;
        match ended {
            Some(status) if status.success() => return Ok(writes),
            Some(status) => return Err(failure(status.to_string())),
            None if start.elapsed() < PATIENCE => sleep(PAUSE),
            None => {
                child.kill().and_then(|()| child.wait()).map_err(told)?;
                return Err(failure(format!("not done after {PATIENCE:?}")));
            }
        }
    }
}

/// Takes all messages that are in a socket, through a buffer. It holds few at a
/// time, and a program that writes waits where it is full.
fn take_messages(socket: &UnixDatagram, buffer: &mut [u8], messages: &mut Vec<Vec<u8>>) -> Result<(), Error> {
    loop {
        match socket.recv(buffer) {
            Ok(length) => messages.push(buffer[..length].to_vec()),
            Err(error) if error.kind() == ErrorKind::WouldBlock => return Ok(()),
            Err(error) => return Err(error),
        }
    }
}
