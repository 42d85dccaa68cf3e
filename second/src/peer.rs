//! The driver on the other side of the pipe. What goes over it is described in
//! driver/driver.c.

use std::io::{BufReader, BufWriter, Read, Write};
use std::process::{Child, ChildStdin, ChildStdout, Command, Stdio};
use std::sync::mpsc::{channel, Receiver};
use std::thread;
use std::time::Duration;

use crate::calls::{Case, Outcome};

/// A library that loops gives no answer at all.
const PATIENCE: Duration = Duration::from_secs(120);

/// What the driver tells beside the outcome.
const FIRST_INPUT_CHANGED: u64 = 1;
const SECOND_INPUT_CHANGED: u64 = 2;
const WRITTEN_BESIDE: u64 = 4;
const CALL_ABSENT: u64 = 8;
const PATTERNS_CHANGED: u64 = 16;

pub struct Reply {
    pub outcome: Outcome,
    flags: u64,
}

impl Reply {
    /// What the driver saw that no call may do.
    pub fn complaint(&self) -> Option<&'static str> {
        match self.flags {
            0 => None,
            f if f & CALL_ABSENT != 0 => Some("the library does not have this call"),
            f if f & FIRST_INPUT_CHANGED != 0 => Some("the first input was changed"),
            f if f & SECOND_INPUT_CHANGED != 0 => Some("the second input was changed"),
            f if f & PATTERNS_CHANGED != 0 => Some("the patterns were changed"),
            f if f & WRITTEN_BESIDE != 0 => Some("bytes beside a buffer were changed"),
            _ => Some("unknown flags"),
        }
    }
}

pub struct Peer {
    command: Vec<String>,
    child: Child,
    requests: BufWriter<ChildStdin>,
    replies: Receiver<Reply>,
}

fn read_reply(from: &mut BufReader<ChildStdout>) -> Option<Reply> {
    let mut head = [0; 40];
    from.read_exact(&mut head).ok()?;
    let word = |i: usize| u64::from_le_bytes(head[8 * i..8 * i + 8].try_into().unwrap());
    let mut changed = vec![0; word(4) as usize];
    from.read_exact(&mut changed).ok()?;
    let outcome = Outcome { packed: word(0), addresses: word(1), changed_at: word(3), changed };
    Some(Reply { outcome, flags: word(2) })
}

impl Peer {
    pub fn start(command: &[String]) -> Result<Peer, String> {
        let mut child = Command::new(&command[0])
            .args(&command[1..])
            .stdin(Stdio::piped())
            .stdout(Stdio::piped())
            .spawn()
            .map_err(|e| format!("{}: {e}", command[0]))?;
        let requests = BufWriter::with_capacity(1 << 17, child.stdin.take().unwrap());
        let mut from = BufReader::with_capacity(1 << 17, child.stdout.take().unwrap());
        let (to_us, replies) = channel();
        // Reads on by itself, so that neither side waits for the other.
        thread::spawn(move || {
            while let Some(reply) = read_reply(&mut from) {
                if to_us.send(reply).is_err() {
                    break;
                }
            }
        });
        Ok(Peer { command: command.to_vec(), child, requests, replies })
    }

    /// False when the driver is gone.
    pub fn send(&mut self, case: &Case) -> bool {
        let mut head = vec![
            case.call.number() | u64::from(case.place) << 8,
            case.number,
            case.file.length,
            case.file.bytes.len() as u64,
            case.image.length,
            case.image.bytes.len() as u64,
            case.lent,
            u64::from(case.fill),
        ];
        if case.call.has_options() {
            head.extend([case.row.length, case.row.bytes.len() as u64, u64::from(case.order)]);
        }
        let mut all = || {
            for word in &head {
                self.requests.write_all(&word.to_le_bytes())?;
            }
            self.requests.write_all(&case.file.bytes)?;
            self.requests.write_all(&case.image.bytes)?;
            self.requests.write_all(&case.row.bytes)
        };
        let sent: std::io::Result<()> = all();
        sent.is_ok()
    }

    pub fn flush(&mut self) -> bool {
        self.requests.flush().is_ok()
    }

    /// The next reply, or none when the driver is gone or does not answer.
    pub fn receive(&mut self) -> Option<Reply> {
        self.replies.recv_timeout(PATIENCE).ok()
    }

    /// A new driver in the place of one that is gone.
    pub fn again(&mut self) -> Result<(), String> {
        let _ = self.child.kill();
        let _ = self.child.wait();
        *self = Peer::start(&self.command)?;
        Ok(())
    }
}

impl Drop for Peer {
    fn drop(&mut self) {
        let _ = self.child.kill();
        let _ = self.child.wait();
    }
}
