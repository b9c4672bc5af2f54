//! Runs the program on a file's bytes, from a file or through a pipe, and ends it where it takes too long.

use std::fs::{self, File};
use std::io::{self, Read, Write};
use std::path::{Path, PathBuf};
use std::process::{Child, ChildStdin, Command, ExitStatus, Stdio};
use std::sync::atomic::{AtomicBool, Ordering};
use std::sync::{Arc, Mutex};
use std::thread;
use std::time::{Duration, Instant};

/// How long one run may take.
const LIMIT: Duration = Duration::from_secs(10);

/// The running program and when it was started; a thread beside looks at it.
#[derive(Default)]
struct Watch {
    running: Mutex<Option<(Child, Instant)>>,
    late: AtomicBool,
}

pub struct Program {
    path: PathBuf,
    /// The file that the next run reads.
    input: PathBuf,
    /// The file that takes what runs write to standard error.
    errors: File,
    errors_path: PathBuf,
    watch: Arc<Watch>,
}

/// What a run gave.
pub struct Ran {
    pub output: Vec<u8>,
    pub errors: u64,
    pub status: ExitStatus,
    pub late: bool,
}

impl Program {
    pub fn new(path: &Path) -> io::Result<Program> {
        let name = format!("plume-hostile-{}", std::process::id());
        let input = std::env::temp_dir().join(name);
        let errors_path = input.with_extension("errors");
        let watch = Arc::new(Watch::default());
        let seen = Arc::clone(&watch);
        thread::spawn(move || loop {
            thread::sleep(LIMIT / 20);
            seen.end_if_late();
        });
        Ok(Program {
            path: path.to_path_buf(),
            input,
            errors: File::create(&errors_path)?,
            errors_path,
            watch,
        })
    }

    /// One run. With `pieces` the bytes come through a pipe, that many at a time.
    pub fn run(&self, file: &[u8], pieces: Option<usize>) -> io::Result<Ran> {
        let mut command = Command::new(&self.path);
        let errors = self.errors.try_clone()?;
        command.stdout(Stdio::piped()).stderr(errors);
        match pieces {
            Some(_) => command.stdin(Stdio::piped()),
            None => {
                fs::write(&self.input, file)?;
                command.stdin(File::open(&self.input)?)
            }
        };
        let mut child = command.spawn()?;
        let stdin = child.stdin.take();
        let mut stdout = child.stdout.take().expect("it is a pipe");
        self.watch.late.store(false, Ordering::SeqCst);
        *self.watch.running.lock().expect("no panic holds it") = Some((child, Instant::now()));
        let mut output = Vec::new();
        thread::scope(|scope| {
            if let (Some(stdin), Some(pieces)) = (stdin, pieces) {
                scope.spawn(move || feed(stdin, file, pieces));
            }
            stdout.read_to_end(&mut output)
        })?;
        Ok(Ran {
            output,
            errors: self.errors.metadata()?.len(),
            status: self.watch.ended()?,
            late: self.watch.late.load(Ordering::SeqCst),
        })
    }
}

impl Drop for Program {
    fn drop(&mut self) {
        for path in [&self.input, &self.errors_path] {
            let _ = fs::remove_file(path);
        }
    }
}

/// A program may stop reading, so a broken pipe is no fault.
fn feed(mut stdin: ChildStdin, file: &[u8], pieces: usize) {
    for piece in file.chunks(pieces) {
        if stdin.write_all(piece).is_err() {
            return;
        }
        thread::yield_now();
    }
}

impl Watch {
    fn end_if_late(&self) {
        let mut running = self.running.lock().expect("no panic holds it");
        if let Some((child, start)) = running.as_mut() {
            if start.elapsed() > LIMIT {
                self.late.store(true, Ordering::SeqCst);
                let _ = child.kill();
            }
        }
    }

    /// Waits for the end without holding the lock, so that the watch can still end the program.
    fn ended(&self) -> io::Result<ExitStatus> {
        loop {
            let mut running = self.running.lock().expect("no panic holds it");
            let (child, _) = running.as_mut().expect("a program runs");
            if let Some(status) = child.try_wait()? {
                *running = None;
                return Ok(status);
            }
            drop(running);
            thread::sleep(Duration::from_micros(30));
        }
    }
}
