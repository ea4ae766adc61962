//! A program that reads `catalog.txt` where it runs and the statement on standard input, and prints its answer.

use std::fmt;
use std::fs::{self, File};
use std::io::{self, Read, Write};
use std::path::{Path, PathBuf};
use std::process::{self, Child, Command, ExitStatus, Stdio};
use std::sync::atomic::{AtomicUsize, Ordering};
use std::sync::mpsc::{self, Receiver};
use std::thread;
use std::time::{Duration, Instant};

use crate::generate::Case;

/// A program with a folder of its own to run in, which goes with it.
pub struct Program {
    path: PathBuf,
    folder: PathBuf,
    limit: Duration,
    shows: bool,
}

/// Why there is no answer.
#[derive(Debug)]
pub enum Fault {
    /// It could not be run.
    System(io::Error),
    /// It ran, and did not end as it should.
    Ended(String),
}

impl From<io::Error> for Fault {
    fn from(error: io::Error) -> Self {
        Fault::System(error)
    }
}

impl fmt::Display for Fault {
    fn fmt(&self, f: &mut fmt::Formatter<'_>) -> fmt::Result {
        match self {
            Fault::System(error) => error.fmt(f),
            Fault::Ended(how) => f.write_str(how),
        }
    }
}

/// More bytes than this are no answer.
const MOST_PRINTED: u64 = 1 << 24;

/// The record that a printed refusal points at, with a line end.
fn pointed_at(case: &Case, printed: &[u8]) -> Option<Vec<u8>> {
    let printed = str::from_utf8(printed).ok()?.strip_suffix('\n')?;
    let ["refused", _, text, line] = printed.split('\t').collect::<Vec<_>>()[..] else {
        return None;
    };
    let text = if text == "catalog" { &case.catalog } else { &case.statement };
    let line = line.parse::<usize>().ok()?.checked_sub(1)?;
    let record = text.split(|&byte| byte == b'\n').nth(line)?;
    (!record.is_empty()).then(|| [record, b"\n"].concat())
}

impl Program {
    /// A program that is stopped when it takes longer than the limit.
    pub fn new(path: &Path, limit: Duration) -> Result<Self, String> {
        static MADE: AtomicUsize = AtomicUsize::new(0);
        let path = fs::canonicalize(path).map_err(|error| format!("{}: {error}", path.display()))?;
        let number = MADE.fetch_add(1, Ordering::Relaxed);
        let folder = std::env::temp_dir().join(format!("judge-{}-{number}", process::id()));
        fs::create_dir_all(&folder).map_err(|error| format!("{}: {error}", folder.display()))?;
        Ok(Program { path, folder, limit, shows: false })
    }

    /// The same program, which has to show the record that a refusal points at.
    #[must_use]
    pub fn showing_records(mut self) -> Self {
        self.shows = true;
        self
    }

    /// What it prints of a case.
    pub fn print(&self, case: &Case) -> Result<Vec<u8>, Fault> {
        let statement = self.folder.join("statement.txt");
        fs::write(&statement, &case.statement)?;
        let child = self.start(&case.catalog, File::open(&statement)?.into())?;
        self.printed(child, case)
    }

    /// What it prints of a case whose statement comes through a pipe, so many bytes at a time.
    pub fn print_piped(&self, case: &Case, bytes: usize) -> Result<Vec<u8>, Fault> {
        let mut child = self.start(&case.catalog, Stdio::piped())?;
        let mut pipe = child.stdin.take().expect("standard input is a pipe");
        let statement = case.statement.clone();
        // Where it has seen that the statement is too long, or has ended, the rest is not taken.
        thread::spawn(move || statement.chunks(bytes).try_for_each(|piece| pipe.write_all(piece)));
        self.printed(child, case)
    }

    fn start(&self, catalog: &[u8], statement: Stdio) -> io::Result<Child> {
        fs::write(self.folder.join("catalog.txt"), catalog)?;
        let mut command = Command::new(&self.path);
        command.current_dir(&self.folder).stdin(statement);
        command.stdout(Stdio::piped()).stderr(Stdio::piped()).spawn()
    }

    /// What it prints of a case, where it ends in time and well. On standard error it says nothing, or shows the record that
    /// its refusal points at.
    fn printed(&self, mut child: Child, case: &Case) -> Result<Vec<u8>, Fault> {
        let output = collected(child.stdout.take().expect("standard output is a pipe"));
        let errors = collected(child.stderr.take().expect("standard error is a pipe"));
        let Some(status) = self.wait(&mut child)? else {
            return Err(Fault::Ended(format!("it was stopped after {:?}", self.limit)));
        };
        let read = |from: Receiver<Vec<u8>>| {
            from.recv_timeout(self.limit).map_err(|_| Fault::Ended("its output was not closed".to_string()))
        };
        let (output, errors) = (read(output)?, read(errors)?);
        let shown = pointed_at(case, &output).unwrap_or_default();
        if errors != shown && (self.shows || !errors.is_empty()) {
            return Err(Fault::Ended(format!("standard error: {}", errors.escape_ascii())));
        }
        if output.len() as u64 > MOST_PRINTED {
            return Err(Fault::Ended(format!("it printed more than {MOST_PRINTED} bytes")));
        }
        if status.success() { Ok(output) } else { Err(Fault::Ended(status.to_string())) }
    }

    /// How it ended; none where it had to be stopped.
    fn wait(&self, child: &mut Child) -> io::Result<Option<ExitStatus>> {
        let start = Instant::now();
        let mut pause = Duration::from_micros(100);
        loop {
            if let Some(status) = child.try_wait()? {
                return Ok(Some(status));
            }
            if start.elapsed() >= self.limit {
                child.kill()?;
                child.wait()?;
                return Ok(None);
            }
            thread::sleep(pause);
            pause = (pause * 2).min(Duration::from_millis(5));
        }
    }
}

impl Drop for Program {
    fn drop(&mut self) {
        if let Err(error) = fs::remove_dir_all(&self.folder) {
            // There is nowhere left to say that this failed too.
            let _ = writeln!(io::stderr(), "{}: {error}", self.folder.display());
        }
    }
}

/// What comes through a pipe until it is closed, or until it is too much.
fn collected(pipe: impl Read + Send + 'static) -> Receiver<Vec<u8>> {
    let (sender, receiver) = mpsc::channel();
    thread::spawn(move || {
        let mut bytes = Vec::new();
        // A pipe that fails has given what it had; how the program ended tells the rest.
        let _ = pipe.take(MOST_PRINTED + 1).read_to_end(&mut bytes);
        sender.send(bytes)
    });
    receiver
}
