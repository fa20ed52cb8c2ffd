//! Input that cannot be read and answers that cannot be written. The program `keys` says so on standard error; the script `keys`, which runs it, also
//! ends with status 1. Where nothing fails, neither says anything, and the status is 0. The script `plan` too.

use compare::process::{keys_program, keys_script, output, plan_script, says_one_line, text};
use std::path::Path;
use std::process::{Command, Output};

/// The case of document 01 and its answers.
const CASE: &[u8] = b"H*100001000A\nH*200000012A\nH*30000A\nH*4A\nH*30000A\n";
const ANSWERS: &str = "0 1 0\n0 0 0\n0 1 1\n0 1 127\n6 0 0\n";

/// Redirections of a shell that make reading or writing fail.
const BAD_INPUT: [&str; 3] = ["<&-", "</", "0>/dev/null"];
const BAD_OUTPUT: [&str; 3] = [">/dev/full", ">&-", "1</dev/null"];

/// Runs a program or script with words and redirections of a shell.
fn redirected(program: &Path, redirections: &str, input: &[u8]) -> Output {
    let mut command = Command::new("sh");
    command.arg("-c").arg(format!("exec \"$0\" {redirections}")).arg(program);
    output(&mut command, Some(input))
}

/// Inputs that end before the first answer is written, soon after, and long after.
fn inputs() -> [Vec<u8>; 3] {
    [b"H*4A".to_vec(), CASE.to_vec(), CASE.repeat(20_000)]
}

#[test]
fn the_script_fails_where_the_input_cannot_be_read() {
    for redirection in BAD_INPUT {
        let given = redirected(&keys_script(), redirection, CASE);
        assert_eq!(given.status.code(), Some(1), "{redirection}");
        assert!(says_one_line("keys", &given), "{redirection}: {}", text(&given.stderr));
        assert_eq!(text(&given.stdout), "");
    }
}

#[test]
fn the_script_fails_where_answers_cannot_be_written() {
    for redirection in BAD_OUTPUT {
        for input in inputs() {
            let given = redirected(&keys_script(), redirection, &input);
            assert_eq!(given.status.code(), Some(1), "{redirection}");
            assert!(says_one_line("keys", &given), "{redirection}: {}", text(&given.stderr));
        }
    }
}

/// With nobody to hear it, or with both failing, the status still says it.
#[test]
fn the_script_fails_with_standard_error_closed() {
    for redirection in BAD_INPUT.iter().chain(&BAD_OUTPUT) {
        let given = redirected(&keys_script(), &format!("{redirection} 2>&-"), CASE);
        assert_eq!(given.status.code(), Some(1), "{redirection}");
        assert_eq!(text(&given.stderr), "");
    }
    for input in BAD_INPUT {
        for output in BAD_OUTPUT {
            let given = redirected(&keys_script(), &format!("{input} {output}"), CASE);
            assert_eq!(given.status.code(), Some(1), "{input} {output}");
        }
    }
}

/// A reader that goes away: more answers than a pipe holds, and one byte taken.
#[test]
fn the_script_fails_where_the_reader_goes_away() {
    let line = r#"{ "$0"; echo "status $?" >&2; } | head -c 1"#;
    let mut command = Command::new("sh");
    command.args(["-c", line]).arg(keys_script());
    let given = output(&mut command, Some(&CASE.repeat(20_000)));
    assert_eq!(text(&given.stdout), "0");
    assert!(text(&given.stderr).ends_with("status 1\n"), "{}", text(&given.stderr));
}

/// The script gives all answers, says nothing and ends with 0: on a case, on lines that are all refused, on no input, and with standard error closed.
#[test]
fn the_script_where_nothing_fails() {
    let cases: [(&[u8], String); 5] = [
        (CASE, ANSWERS.to_string()),
        (&CASE[..CASE.len() - 1], ANSWERS.to_string()),
        (b"", String::new()),
        (b"\nkeys:\nH*5A\n\xFF", "9 0 0\n".repeat(4)),
        (&b"H*4A\n".repeat(100_000), "0 1 127\n".repeat(100_000)),
    ];
    for (input, answers) in cases {
        for redirection in ["", "2>&-", "3>&-", "3</dev/null"] {
            let given = redirected(&keys_script(), redirection, input);
            assert_eq!(given.status.code(), Some(0), "{redirection}: {}", text(&given.stderr));
            assert!(text(&given.stdout) == answers, "other answers");
            assert_eq!(text(&given.stderr), "");
        }
    }
    for redirection in ["</dev/null", "</dev/null >/dev/null", ">/dev/null"] {
        let given = redirected(&keys_script(), redirection, CASE);
        assert_eq!(given.status.code(), Some(0), "{redirection}");
        assert_eq!((text(&given.stdout), text(&given.stderr)), (String::new(), String::new()));
    }
}

/// From another folder, by its whole path and by a short one.
#[test]
fn the_script_from_another_folder() {
    let folder = Path::new(env!("CARGO_TARGET_TMPDIR"));
    let whole = keys_script();
    let given = output(Command::new(&whole).current_dir(folder), Some(CASE));
    assert_eq!((given.status.code(), text(&given.stdout)), (Some(0), ANSWERS.to_string()));
    let given = output(Command::new("./keys").current_dir(whole.parent().unwrap()), Some(CASE));
    assert_eq!((given.status.code(), text(&given.stdout)), (Some(0), ANSWERS.to_string()));
}

/// The program says each failure itself, in a line that starts with its name. Its status is 0 all the same.
#[test]
fn the_program_says_what_fails() {
    for redirection in BAD_INPUT {
        let given = redirected(&keys_program(), redirection, CASE);
        assert!(says_one_line("keys", &given), "{redirection}: {}", text(&given.stderr));
        assert!(text(&given.stderr).starts_with("keys: the input could not be read"));
        assert_eq!((given.status.code(), text(&given.stdout)), (Some(0), String::new()));
    }
    for redirection in BAD_OUTPUT {
        for input in inputs() {
            let given = redirected(&keys_program(), redirection, &input);
            assert!(says_one_line("keys", &given), "{redirection}: {}", text(&given.stderr));
            assert!(text(&given.stderr).starts_with("keys: the answers could not be written"));
            assert_eq!(given.status.code(), Some(0));
        }
    }
    let given = redirected(&keys_program(), "", CASE);
    assert_eq!((given.status.code(), text(&given.stderr)), (Some(0), String::new()));
    assert_eq!(text(&given.stdout), ANSWERS);
}

/// The script `plan`, from another folder and by a link to it, with standard input and output closed or odd.
#[test]
fn the_script_plan() {
    let folder = Path::new(env!("CARGO_TARGET_TMPDIR"));
    // rt takes no link below the repository, so it goes once it was used
    let link = folder.join("link_to_plan");
    let _ = std::fs::remove_file(&link);
    std::os::unix::fs::symlink(plan_script(), &link).unwrap();
    let image = folder.join("plan.img");
    let stored = format!("fresh 4 -o '{}'", image.display());
    let made = redirected(&link, &stored, b"");
    assert!(made.status.success(), "{}", text(&made.stderr));
    std::fs::remove_file(&link).unwrap();
    let image = image.display();
    for redirection in BAD_OUTPUT {
        for words in [format!("show '{image}'"), format!("draw '{image}'"), "--help".to_string()] {
            let given = redirected(&plan_script(), &format!("{words} {redirection}"), b"");
            assert!(
                says_one_line("plan", &given),
                "{words} {redirection}: {}",
                text(&given.stderr)
            );
            assert_eq!(given.status.code(), Some(2), "{words} {redirection}");
        }
    }
    for redirection in BAD_INPUT {
        let given = redirected(&plan_script(), &format!("key '{image}' {redirection}"), CASE);
        assert_eq!(
            (given.status.code(), text(&given.stdout)),
            (Some(2), String::new()),
            "{redirection}"
        );
        assert!(says_one_line("plan", &given), "{redirection}: {}", text(&given.stderr));
        let given = redirected(&plan_script(), &format!("show '{image}' {redirection}"), b"");
        assert_eq!(given.status.code(), Some(0), "{redirection}");
    }
}
