//! The scripts that a user runs, in a copy of the repository that has no crates and a toolchain that only pretends: their words and pages of help, what
//! they say where a tool is missing, what sets off proving, and what they say while they prove and where a proof fails.

use compare::process::{output, root, says_one_line, text};
use std::fs::{self, File, Permissions};
use std::io::{BufRead, BufReader};
use std::os::unix::fs::{symlink, PermissionsExt};
use std::path::PathBuf;
use std::process::{Command, Output, Stdio};
use std::time::{Duration, SystemTime};

/// The scripts that take no word but --help, and those that take others.
const PLAIN: [&str; 5] = ["keys", "visit", "numbers", "test", "scripts/library"];
const OTHERS: [&str; 2] = ["scripts/pictures", "bench/versions"];

/// What the scripts use of the system. Tools that they ask for by name are not among them.
const USUAL: [&str; 20] = [
    "awk", "bash", "cat", "cp", "dirname", "env", "find", "flock", "mkdir", "mktemp", "mv",
    "readlink", "rm", "sed", "sh", "sort", "tac", "tail", "tee", "touch",
];

/// A copy of the scripts, with a folder bin of the usual tools and no others. It stands outside the repository, where rt would take its sources for lost
/// ones, and goes with this value.
struct Copy(PathBuf);

impl Drop for Copy {
    fn drop(&mut self) {
        let _ = fs::remove_dir_all(&self.0);
    }
}

impl Copy {
    fn new(name: &str) -> Copy {
        let folder = std::env::temp_dir().join(format!("scripts-{}-{name}", std::process::id()));
        let made = ["bench", "bin", "docs", "rust/plan/help", "scripts"];
        for made in made.iter().chain(&["crates/keys", "crates/table/src", "crates/telephone_c"]) {
            fs::create_dir_all(folder.join(made)).unwrap();
        }
        let pages = fs::read_dir(root().join("rust/plan/help")).unwrap();
        let pages =
            pages.map(|page| format!("rust/plan/help/{}", page.unwrap().file_name().display()));
        let others = ["plan", "scripts/proved.sh", "scripts/words.sh", "crates.txt", "Cargo.toml"];
        let others = others.into_iter().chain(["docs/visit.txt"]).chain(PLAIN).chain(OTHERS);
        for file in others.map(str::to_string).chain(pages) {
            fs::copy(root().join(&file), folder.join(file)).unwrap();
        }
        let path = std::env::var_os("PATH").unwrap();
        for tool in USUAL {
            let mut places = std::env::split_paths(&path).map(|place| place.join(tool));
            let found = places.find(|place| place.exists()).unwrap_or_else(|| panic!("no {tool}"));
            symlink(found, folder.join("bin").join(tool)).unwrap();
        }
        Copy(folder)
    }

    /// Puts a tool into the folder bin: lines of a shell.
    fn tool(self, name: &str, lines: &str) -> Copy {
        self.program(&format!("bin/{name}"), lines);
        self
    }

    fn program(&self, file: &str, lines: &str) {
        fs::create_dir_all(self.0.join(file).parent().unwrap()).unwrap();
        fs::write(self.0.join(file), format!("#!/bin/sh\n{lines}\n")).unwrap();
        fs::set_permissions(self.0.join(file), Permissions::from_mode(0o755)).unwrap();
    }

    /// A script of the copy with these words, with the tools of the copy alone.
    fn command(&self, script: &str, words: &[&str]) -> Command {
        let mut command = Command::new(self.0.join(script));
        command.args(words).env("PATH", self.0.join("bin"));
        command
    }

    fn run(&self, script: &str, words: &[&str]) -> Output {
        output(&mut self.command(script, words), Some(b""))
    }

    /// Gives a file, which is made where it is not there, a time: so many seconds after the first.
    fn touch(&self, file: &str, seconds: u64) {
        fs::create_dir_all(self.0.join(file).parent().unwrap()).unwrap();
        let time = SystemTime::UNIX_EPOCH + Duration::from_secs(1_000_000_000 + seconds);
        let file = File::options().create(true).append(true).open(self.0.join(file)).unwrap();
        file.set_modified(time).unwrap();
    }
}

/// The name of a script without its folder.
fn name(script: &str) -> &str {
    script.rsplit('/').next().unwrap()
}

/// With no tool at hand each script says its usage, what it does and its statuses; from another folder, too. Any other word is refused.
#[test]
fn every_script_takes_help_and_refuses_other_words() {
    let copy = Copy::new("help");
    for script in PLAIN.iter().chain(&OTHERS) {
        for help in ["--help", "-h"] {
            let mut command = copy.command(&format!("scripts/../{script}"), &[help]);
            let given = output(command.current_dir(copy.0.join("docs")), Some(b""));
            let said = text(&given.stdout);
            assert_eq!((given.status.code(), text(&given.stderr)), (Some(0), String::new()));
            assert!(said.starts_with("usage: ") && said.lines().next().unwrap().contains(script));
            assert!(said.contains("\nStatus 0: ") && said.contains("2: "), "{script}: {said}");
            assert!(!said.contains('#') && said.lines().count() > 5, "{script}: {said}");
        }
        for words in [&["H*4A"][..], &[""], &["--check", "x"], &["a", "b"], &["--helper"]] {
            if name(script) == "versions" && words.len() == 1 {
                continue;
            }
            let given = copy.run(script, words);
            assert_eq!((given.status.code(), text(&given.stdout)), (Some(2), String::new()));
            assert!(says_one_line(name(script), &given), "{script}: {}", text(&given.stderr));
        }
    }
    assert!(!copy.0.join("target").exists());
}

/// A page of help that cannot be written is a failure.
#[test]
fn help_that_cannot_be_written() {
    let copy = Copy::new("unwritten");
    for script in PLAIN.iter().chain(&OTHERS).chain(&["plan"]) {
        for redirection in [">/dev/full", ">&-", "1</dev/null"] {
            let mut shell = Command::new("sh");
            shell
                .args(["-c", &format!("exec \"$0\" --help {redirection}")])
                .arg(copy.0.join(script));
            let given = output(&mut shell, Some(b""));
            assert_eq!(given.status.code(), Some(2), "{script} {redirection}");
            assert!(says_one_line(name(script), &given), "{script}: {}", text(&given.stderr));
        }
    }
}

/// The pages of the tool, and its version, without a tool at hand: nothing is proved or built.
#[test]
fn pages_of_the_tool() {
    let copy = Copy::new("pages");
    let pages: [(&str, &[&[&str]]); 3] = [
        ("help", &[&["--help"], &["-h", "show"], &["help"], &["help", "help"], &["help", "-h"]]),
        ("key", &[&["key", "--help"], &["help", "key"], &["key", "x", "-h", "--"]]),
        ("take-back", &[&["take-back", "--help"], &["help", "take-back"]]),
    ];
    for (page, lines) in pages {
        let page = fs::read_to_string(root().join(format!("rust/plan/help/{page}.txt"))).unwrap();
        for line in lines {
            let given = copy.run("plan", line);
            assert_eq!((given.status.code(), text(&given.stderr)), (Some(0), String::new()));
            assert_eq!(text(&given.stdout), page, "{line:?}");
        }
    }
    let version = format!("plan {}\n", env!("CARGO_PKG_VERSION"));
    assert_eq!(text(&copy.run("plan", &["--version"]).stdout), version);
    for line in [&["shew", "--help"][..], &["show", "--", "--help"], &["help", "../help/key"], &[]]
    {
        let given = copy.run("plan", line);
        assert_eq!((given.status.code(), text(&given.stdout)), (Some(2), String::new()));
    }
}

/// What is missing is said at once and before any work, each tool in a line with what it is for.
#[test]
fn missing_tools() {
    let copy = Copy::new("missing");
    let all = ["rt", "cargo", "cc"];
    for (script, words, tools) in [
        ("keys", &[][..], &["rt"][..]),
        ("scripts/library", &[], &["rt"]),
        ("visit", &[], &all),
        ("plan", &["fresh", "4"], &all),
        ("numbers", &[], &all),
        ("scripts/pictures", &[], &all),
        ("bench/versions", &["HEAD"], &["rt", "cargo", "cc", "gcc", "git", "as", "ld", "objcopy"]),
        ("test", &[], &["rt", "cargo", "cc", "gcc", "g++", "objdump", "python3"]),
    ] {
        let given = copy.run(script, words);
        assert_eq!(
            (given.status.code(), text(&given.stdout)),
            (Some(2), String::new()),
            "{script}"
        );
        let said = text(&given.stderr);
        let start = |tool| format!("{}: missing: {tool}, which ", name(script));
        assert!(
            said.lines().zip(tools).all(|(line, tool)| line.starts_with(&start(tool))),
            "{said}"
        );
        assert_eq!(said.lines().count(), tools.len(), "{said}");
    }
    assert!(!copy.0.join("target").exists());
}

/// Cargo of an earlier version than Cargo.toml asks for, and one that does not run. Versions are compared as numbers.
#[test]
fn an_early_cargo() {
    let run = |lines: &str| {
        let copy = Copy::new("early").tool("cargo", lines).tool("cc", "").tool("rt", "exit 1");
        text(&copy.run("visit", &[]).stderr)
    };
    let asked = env!("CARGO_PKG_RUST_VERSION");
    let missing = format!("visit: missing: cargo {asked} or later, which builds the Rust crates;");
    let early = run("echo 'cargo 1.9.0 (of 2016)'");
    assert_eq!(early, format!("{missing} there is cargo 1.9.0 (of 2016)\n"));
    assert_eq!(run("exit 1"), format!("{missing} there is one that does not run\n"));
    for late in [asked, "1.188.0", "2.0.0-nightly"] {
        assert!(run(&format!("echo 'cargo {late} (x)'")).starts_with("proving "), "{late}");
    }
}

/// A visit shows what the tool says, but for the lines that say where the image goes. Where it cannot be shown, or the tool fails, one line says so. The
/// tool stands in for the one that is built.
#[test]
fn what_a_visit_shows() {
    let copy = Copy::new("visit");
    let tool = |lines: &str| {
        copy.program("rust/target/release/plan", lines);
        let sources = ["Cargo.toml", "Cargo.lock", "crates.txt", "rust/telephone/build.rs"];
        let crates = ["plan", "telephone"]
            .map(|name| ["Cargo.toml", "src/lib.rs"].map(|file| format!("rust/{name}/{file}")));
        for source in
            sources.iter().copied().chain(crates.as_flattened().iter().map(String::as_str))
        {
            copy.touch(source, 5);
        }
        copy.touch("target/staticlib/libtelephone.a", 10);
        copy.touch("rust/target/release/plan", 20);
    };
    let visit = |redirection: &str| {
        let mut shell = Command::new("sh");
        shell.args(["-c", &format!("exec \"$0\" {redirection}")]).arg(copy.0.join("visit"));
        output(shell.env("PATH", copy.0.join("bin")), Some(b""))
    };
    tool("echo image; echo \"said of $1\" >&2; echo 'edition 2 to standard output' >&2");
    let given = visit("");
    let said = (text(&given.stdout), text(&given.stderr));
    assert_eq!(said, ("said of fresh\nsaid of key\n".to_string(), String::new()));
    assert_eq!(given.status.code(), Some(0));
    for redirection in [">/dev/full", ">&-", "1</dev/null"] {
        let given = visit(redirection);
        assert_eq!(given.status.code(), Some(2), "{redirection}");
        assert!(says_one_line("visit", &given), "{redirection}: {}", text(&given.stderr));
    }
    for fails in ["fresh", "key"] {
        tool(&format!("[ $1 != {fails} ] || {{ echo 'plan: no room' >&2; exit 2; }}"));
        let given = visit("");
        let said = (text(&given.stdout), text(&given.stderr));
        assert_eq!(said, (String::new(), "visit: plan: no room\n".to_string()), "{fails}");
        assert_eq!(given.status.code(), Some(2), "{fails}");
    }
}

/// A source that is newer than what was proved sets off proving. A wrong program that has to be refused, or a document, does not.
#[test]
fn what_sets_off_proving() {
    let copy = Copy::new("sources").tool("rt", "exit 1");
    copy.program("target/bin/keys", "echo answered");
    copy.touch("target/bin/keys", 10);
    let touched = |file: &str, seconds| {
        copy.touch(file, seconds);
        let given = copy.run("keys", &[]);
        match (given.status.code(), text(&given.stdout).as_str()) {
            (Some(0), "answered\n") => false,
            (Some(2), "") => true,
            other => panic!("{file}: {other:?}: {}", text(&given.stderr)),
        }
    };
    let none = ["crates.txt", "crates/table/src/lib.rt", "crates/table/specs/Lib.antt"];
    for file in none {
        assert!(!touched(file, 5), "{file}");
    }
    for file in [
        "must-fail/a.edit",
        "must-fail/b.rt",
        "wrong/c.edit",
        "wrong/d/src/lib.rt",
        "out/rlib/lib.rt",
        "README.md",
    ] {
        assert!(!touched(&format!("crates/table/{file}"), 20), "{file}");
    }
    for file in none {
        assert!(touched(file, 20), "{file}");
        assert!(!touched(file, 5), "{file}");
    }
    fs::remove_file(copy.0.join("target/bin/keys")).unwrap();
    assert!(touched("crates.txt", 5));
}

/// What the toolchain prints where it has proved a crate, as a line of a shell.
fn proves(name: &str) -> String {
    format!("echo 'crate {name}: modules loaded=1 checked=2'; echo 'logic=proved functions=3'")
}

/// The first two crates that a script says are proved, without the seconds, which depend on the machine.
fn first_proved(said: &[impl AsRef<str>]) -> Vec<&str> {
    let lines = said[1..3].iter().map(AsRef::as_ref);
    assert!(lines.clone().all(|line| line.ends_with(" s)")));
    lines.map(|line| line.split(" (").next().unwrap()).collect()
}

/// A crate that is proved is said before the next one is: the toolchain waits for the line to be read, for some seconds.
#[test]
fn progress_line_by_line() {
    let (finite, table) = (proves("finite"), proves("table"));
    let rt = format!("{finite}\ntries=0\nwhile [ ! -e read ] && [ $tries -lt 100 ]; do sleep 0.1; tries=$((tries + 1)); done
        [ -e read ] && {{ {table}; }}\nexit 1");
    let copy = Copy::new("progress").tool("rt", &rt);
    symlink("/bin/sleep", copy.0.join("bin/sleep")).unwrap();
    let mut command = copy.command("keys", &[]);
    let mut child = command.stdin(Stdio::null()).stderr(Stdio::piped()).spawn().unwrap();
    let mut lines = Vec::new();
    for line in BufReader::new(child.stderr.take().unwrap()).lines() {
        lines.push(line.unwrap());
        if lines.last().unwrap().contains("finite proved") {
            fs::write(copy.0.join("crates/keys/read"), "").unwrap();
        }
    }
    assert_eq!(child.wait().unwrap().code(), Some(2));
    assert_eq!(first_proved(&lines), ["   1  finite proved", "   2  table proved"], "{lines:?}");
}

/// While they prove, the scripts say which crate is proved; where a proof fails, they say so, run nothing and end with another status than 0.
#[test]
fn where_a_proof_fails() {
    let rt = format!(
        "{}; {}; echo 'error: a fact fails' >&2; exit 1",
        proves("finite"),
        proves("table")
    );
    let copy = Copy::new("failing_proof").tool("rt", &rt).tool("cc", "");
    let copy = copy.tool("cargo", "echo 'cargo 99.0.0 (x)'");
    for script in ["visit", "plan", "keys", "numbers", "scripts/library", "scripts/pictures"] {
        let given = copy.run(script, &[]);
        assert_eq!(
            (given.status.code(), text(&given.stdout)),
            (Some(2), String::new()),
            "{script}"
        );
        let said = text(&given.stderr);
        let lines: Vec<&str> = said.lines().collect();
        assert!(lines[0].starts_with("proving ") && lines[0].contains(" crates"), "{said}");
        assert_eq!(first_proved(&lines), ["   1  finite proved", "   2  table proved"]);
        assert!(said.contains("error: a fact fails") && said.contains("not proved: rt "), "{said}");
    }
}
