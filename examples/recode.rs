//! Containers from Rust: the program as a process for each file.
//!
//! usage: recode FILE [PROGRAM]     (a trial: encodes the file, decodes it, compares, and prints both lengths)
use std::io::{Read, Write};
use std::process::{Command, ExitCode, Stdio};
use std::sync::mpsc::{RecvTimeoutError, channel};
use std::time::{Duration, Instant};
use std::{env, fmt, fs, io, thread};

/// The longest that a call may take.
const LONGEST: Duration = Duration::from_secs(60);

/// The most bytes that a decode may write: those of the largest file that is encoded. A container that isn't your own may decode to
/// more than a million times its length.
const MOST: u64 = 67_108_864;

/// Why there are no bytes.
pub enum Error {
    /// The bytes are no container of a file, or a damaged one: raise an alarm.
    Damaged(String),
    /// The program could not do its work, as when it is out of memory, takes too long or can't be loaded: try again.
    Failed(String),
}

impl fmt::Display for Error {
    fn fmt(&self, to: &mut fmt::Formatter) -> fmt::Result {
        match self {
            Error::Damaged(why) => write!(to, "damaged: {why}"),
            Error::Failed(why) => write!(to, "failed: {why}"),
        }
    }
}

impl From<io::Error> for Error {
    fn from(why: io::Error) -> Self {
        Error::Failed(why.to_string())
    }
}

/// What a command came to.
enum Answer {
    Bytes(Vec<u8>),
    /// Status 1, with the refusal.
    Refused(String),
    /// It wrote more than it may.
    WroteMore,
}

/// Runs a command of the program over bytes, of which it may write `most`. They are fed by a thread of its own, since the
/// program may answer before it has read them all; another thread kills the program if it takes too long, but not what a script in its place has started.
fn run(program: &str, command: &str, data: &[u8], most: u64) -> Result<Answer, Error> {
    let mut child = Command::new(program)
        .arg(command)
        .stdin(Stdio::piped())
        .stdout(Stdio::piped())
        .stderr(Stdio::piped())
        .spawn()?;
    let mut input = child.stdin.take().expect("stdin is piped");
    let output = child.stdout.take().expect("stdout is piped");
    let mut errors = child.stderr.take().expect("stderr is piped");
    let (mut made, mut line) = (Vec::new(), Vec::new());
    let status = thread::scope(|scope| {
        scope.spawn(move || input.write_all(data));
        let (over, wait) = channel::<()>();
        let watch = scope.spawn(move || {
            let until = Instant::now() + LONGEST;
            if wait.recv_timeout(LONGEST) == Err(RecvTimeoutError::Disconnected) {
                // It closed its output, and should end.
                while Instant::now() < until {
                    if let Some(status) = child.try_wait()? {
                        return Ok(status);
                    }
                    thread::sleep(Duration::from_millis(1));
                }
            }
            child.kill()?;
            child.wait()
        });
        output.take(most + 1).read_to_end(&mut made)?;
        if made.len() as u64 > most {
            let _ = over.send(());
        }
        errors.read_to_end(&mut line)?;
        drop(over);
        watch.join().expect("the watch doesn't panic")
    })?;
    if made.len() as u64 > most {
        return Ok(Answer::WroteMore);
    }
    let line = String::from_utf8_lossy(&line).trim().to_string();
    match status.code() {
        Some(0) => Ok(Answer::Bytes(made)),
        // The line too: a program that can't be loaded, as where glibc is too old, has status 1 as well.
        Some(1) if line.starts_with("lepton: refused ") => Ok(Answer::Refused(line)),
        _ => Err(Error::Failed(format!("{status}, {line}"))),
    }
}

/// Returns the container of a JPEG file, or `None` if lepton refuses the file or no container is smaller: store it as it is.
pub fn encode(program: &str, file: &[u8]) -> Result<Option<Vec<u8>>, Error> {
    // A container may be longer than its file.
    let container = match run(program, "encode", file, 2 * MOST)? {
        Answer::Bytes(container) => container,
        Answer::Refused(_) => return Ok(None),
        Answer::WroteMore => return Err(Error::Failed("it wrote too much".to_string())),
    };
    match decode(program, &container) {
        Ok(back) if back == file => Ok(Some(container).filter(|made| made.len() < file.len())),
        Ok(_) | Err(Error::Damaged(_)) => Err(Error::Failed("the file did not come back".to_string())),
        Err(failed) => Err(failed),
    }
}

/// Returns the file of a container.
pub fn decode(program: &str, container: &[u8]) -> Result<Vec<u8>, Error> {
    match run(program, "decode", container, MOST)? {
        Answer::Bytes(file) => Ok(file),
        Answer::Refused(line) => Err(Error::Damaged(line)),
        Answer::WroteMore => Err(Error::Damaged(format!("it wrote more than {MOST} bytes"))),
    }
}

fn main() -> ExitCode {
    let words: Vec<String> = env::args().collect();
    let (Some(name), program) = (words.get(1), words.get(2).map_or("lepton", String::as_str)) else {
        eprintln!("usage: recode FILE [PROGRAM]");
        return ExitCode::from(2);
    };
    let said = fs::read(name).map_err(Error::from).and_then(|file| {
        let container = encode(program, &file)?;
        Ok(container.map_or("stored as it is".to_string(), |made| format!("{} {}", file.len(), made.len())))
    });
    match said.and_then(|said| Ok(writeln!(io::stdout(), "{said}")?)) {
        Ok(()) => ExitCode::SUCCESS,
        Err(why) => {
            eprintln!("{name}: {why}");
            ExitCode::FAILURE
        }
    }
}
