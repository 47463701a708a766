//! The replay program as a child process: a tape on its standard input, lines on its standard output.

use std::io::{Read, Write};
use std::path::PathBuf;
use std::process::{Child, ChildStdin, Command, Stdio};
use std::sync::Mutex;
use std::time::{Duration, Instant};

/// How long one run may take.
const MOST_TIME: Duration = Duration::from_secs(30);

/// The pause between the pieces of a tape that is not given at once.
const PAUSE: Duration = Duration::from_millis(3);

/// A run that is under way, for the watch to see.
struct Running {
    child: Child,
    since: Instant,
}

/// The program, and the runs that are under way.
pub struct Program {
    path: PathBuf,
    running: Mutex<Vec<Running>>,
}

/// What a run left behind.
#[derive(Debug)]
pub struct Run {
    pub output: Vec<u8>,
    pub errors: Vec<u8>,
    /// The exit status; none if a signal ended the run.
    pub status: Option<i32>,
}

impl Run {
    /// What is wrong with the run beside its output: an exit status other than 0, or something on standard error.
    pub fn fault(&self) -> Option<String> {
        match self.status {
            None => return Some("the program was ended by a signal (or by this runner after 30 seconds)".to_string()),
            Some(0) => {}
            Some(status) => return Some(format!("the program ended with exit status {status}")),
        }
        let errors = String::from_utf8_lossy(&self.errors);
        (!errors.is_empty())
            .then(|| format!("the program wrote on standard error: {}", errors.lines().next().unwrap_or("")))
    }
}

impl Program {
    pub fn new(path: PathBuf) -> Program {
        Program { path, running: Mutex::new(Vec::new()) }
    }

    /// Runs the program on a tape. In three pieces or at once, the program must read all of it.
    pub fn run(&self, tape: &[u8], in_pieces: bool) -> std::io::Result<Run> {
        let mut child =
            Command::new(&self.path).stdin(Stdio::piped()).stdout(Stdio::piped()).stderr(Stdio::piped()).spawn()?;
        let (stdin, stdout, stderr) = (child.stdin.take(), child.stdout.take(), child.stderr.take());
        let id = child.id();
        self.lock().push(Running { child, since: Instant::now() });
        if let Some(stdin) = stdin {
            // A program that has read enough may close its input early; its output then tells.
            let _ = feed(stdin, tape, in_pieces);
        }
        let mut run = Run { output: Vec::new(), errors: Vec::new(), status: None };
        if let (Some(mut stdout), Some(mut stderr)) = (stdout, stderr) {
            stdout.read_to_end(&mut run.output)?;
            stderr.read_to_end(&mut run.errors)?;
        }
        run.status = self.finish(id)?;
        Ok(run)
    }

    /// Waits for a child whose output has ended.
    fn finish(&self, id: u32) -> std::io::Result<Option<i32>> {
        let mut running = self.lock();
        let place =
            running.iter().position(|running| running.child.id() == id).expect("the child was put there by this run");
        let mut ended = running.swap_remove(place);
        drop(running);
        Ok(ended.child.wait()?.code())
    }

    /// Ends runs that take too long; their output then ends, and the run is reported.
    pub fn watch(&self) {
        for running in self.lock().iter_mut() {
            if running.since.elapsed() > MOST_TIME {
                let _ = running.child.kill();
            }
        }
    }

    fn lock(&self) -> std::sync::MutexGuard<'_, Vec<Running>> {
        self.running.lock().expect("no thread fails while it holds the list")
    }
}

fn feed(mut stdin: ChildStdin, tape: &[u8], in_pieces: bool) -> std::io::Result<()> {
    if !in_pieces {
        return stdin.write_all(tape);
    }
    for piece in tape.chunks(tape.len() / 3 + 1) {
        stdin.write_all(piece)?;
        std::thread::sleep(PAUSE);
    }
    Ok(())
}
