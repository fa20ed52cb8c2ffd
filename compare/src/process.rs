//! Runs a process with an input and gives all that it wrote. One that does not end in time is ended, with all that it started.

use std::io::{Read, Write};
use std::os::unix::process::CommandExt;
use std::path::{Path, PathBuf};
use std::process::{Child, Command, Output, Stdio};
use std::thread::{scope, sleep, spawn, JoinHandle};
use std::time::{Duration, Instant};

/// The longest that a process may run.
const LIMIT: Duration = Duration::from_secs(40);

/// The program `keys`, as the gate built it.
pub fn keys_program() -> PathBuf {
    let program = root().join("target/bin/keys");
    assert!(program.exists(), "no {}: run `./keys` first", program.display());
    program
}

/// The repository.
pub fn root() -> PathBuf {
    Path::new(env!("CARGO_MANIFEST_DIR")).join("..").canonicalize().unwrap()
}

/// The script that runs it.
pub fn keys_script() -> PathBuf {
    keys_program();
    root().join("keys")
}

/// The script that runs the tool `plan`.
pub fn plan_script() -> PathBuf {
    root().join("plan")
}

pub fn text(bytes: &[u8]) -> String {
    String::from_utf8_lossy(bytes).to_string()
}

/// Whether standard error has one line, which starts with the name of the program, as it was called or alone.
pub fn says_one_line(program: &str, output: &Output) -> bool {
    let said = text(&output.stderr);
    let name = said.split(':').next().map(Path::new).and_then(Path::file_name);
    said.ends_with('\n') && said.lines().count() == 1 && name.is_some_and(|name| name == program)
}

/// Runs a command to its end. Its input is a pipe that is given these bytes, but where the command has an input of its own.
pub fn output(command: &mut Command, input: Option<&[u8]>) -> Output {
    within(LIMIT, command, input).unwrap_or_else(|| panic!("did not end: {command:?}"))
}

/// The same within a time; nothing where it did not end.
fn within(limit: Duration, command: &mut Command, input: Option<&[u8]>) -> Option<Output> {
    if input.is_some() {
        command.stdin(Stdio::piped());
    }
    let started = command.stdout(Stdio::piped()).stderr(Stdio::piped()).process_group(0).spawn();
    let mut child = started.unwrap_or_else(|error| panic!("{command:?}: {error}"));
    let stdin = child.stdin.take();
    let stdout = reader(child.stdout.take().unwrap());
    let stderr = reader(child.stderr.take().unwrap());
    let status = scope(|scope| {
        // a process may end before it has read all, so a write may fail
        scope.spawn(move || stdin.map(|mut pipe| pipe.write_all(input.unwrap_or_default())));
        let end = Instant::now() + limit;
        loop {
            if let Some(status) = child.try_wait().unwrap() {
                return Some(status);
            }
            if Instant::now() > end {
                end_group(&mut child);
                return None;
            }
            sleep(Duration::from_millis(2));
        }
    });
    let (stdout, stderr) = (stdout.join().unwrap(), stderr.join().unwrap());
    status.map(|status| Output { status, stdout, stderr })
}

fn reader(mut from: impl Read + Send + 'static) -> JoinHandle<Vec<u8>> {
    spawn(move || {
        let mut bytes = Vec::new();
        from.read_to_end(&mut bytes).unwrap();
        bytes
    })
}

/// Ends the process group that a child leads.
fn end_group(child: &mut Child) {
    let group = format!("-{}", child.id());
    let ended = Command::new("kill").args(["-KILL", "--", &group]).status();
    assert!(ended.is_ok_and(|status| status.success()), "kill {group}");
    child.wait().unwrap();
}

#[cfg(test)]
mod tests {
    use super::*;

    #[test]
    fn output_and_status() {
        let mut command = Command::new("sh");
        let given = output(command.args(["-c", "cat; echo b >&2; exit 3"]), Some(b"a\n"));
        assert_eq!(
            (given.status.code(), given.stdout, given.stderr),
            (Some(3), b"a\n".to_vec(), b"b\n".to_vec())
        );
    }

    /// Neither a shell that waits nor what it started holds a test up.
    #[test]
    fn a_process_that_does_not_end() {
        let mut command = Command::new("sh");
        command.args(["-c", "sleep 600 & sleep 600; :"]);
        let started = Instant::now();
        assert!(within(Duration::from_millis(100), &mut command, Some(b"")).is_none());
        assert!(started.elapsed() < Duration::from_secs(20));
    }
}
