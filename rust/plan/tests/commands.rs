//! The program `plan` on stored images: what it writes is held to stored outputs. STORE_OUTPUTS=1 writes them anew; read the difference then.

mod writers;

use plan::diff::{diff, Verdict};
use plan::view::View;
use plan::words::count;
use std::fs::{self, File};
use std::io::Read;
use std::os::unix::fs::PermissionsExt;
use std::path::{Path, PathBuf};
use std::process::{Command, Output, Stdio};
use telephone::{Exit, Refusal, Table, IMAGE_MAX};

/// Each command line, by the name of its output. The images stand in tests/images; those with a file .keys beside them were keyed. They are of edition 1
/// but for ring-2, which is ring in edition 2, contacts, which has contacts above 99, and those of several cabins. contacts-old has the records of
/// contacts in edition 1. The slips are those of clearing exit 0 of step 0 in ring and in cabins; cleared and cabins-cleared are the images after it. flat
/// was keyed by docs/flat.txt, and flat-cleared is flat after a clearing by which the primary and nine other contacts are never rung again. silent has
/// steps behind exits of the alarm, of a message and of a wait that are never taken.
const CASES: [(&str, &str); 145] = [
    ("no-command", ""),
    ("wrong-command", "shew ring.img"),
    ("wrong-option", "show --dot ring.img"),
    ("option-without-value", "fresh 4 -o"),
    ("option-twice", "fresh 4 -o /dev/null -o /dev/null"),
    ("option-twice-limit", "trial ring.img 2 --limit 3 --limit 4"),
    ("words-missing", "why ring.img"),
    ("words-too-many", "show ring.img ring.img"),
    ("fresh", "fresh 4"),
    ("fresh-refused", "fresh 129"),
    ("fresh-no-number", "fresh 65536"),
    ("fresh-cabins", "fresh 8 1/2 4/6 0/0 0/5"),
    ("fresh-bad-list", "fresh 8 1/2 4/3"),
    ("fresh-capacity-first", "fresh 129 1/2 4/3"),
    ("fresh-past-16-bits", "fresh 128 32768/65535 32768/65535"),
    ("fresh-no-pair", "fresh 8 1/2 4"),
    ("fresh-half-a-pair", "fresh 8 1/2 /6"),
    ("fresh-nine-pairs", "fresh 8 0/1 0/1 0/1 0/1 0/1 0/1 0/1 0/1 0/1"),
    ("add", "add cabins.img 4 0 1 7 1"),
    ("add-for-cabin-0", "add ring.img 0 3 2 15 0"),
    ("add-bad-cabin", "add cabins.img 9 9 9 9 8"),
    ("add-at-limit", "add cabins.img 4 0 1 7 2"),
    ("add-reserved", "add cabins.img 4 0 1 7 3"),
    ("add-filled", "add cabins.img 0 0 1 7 3"),
    ("add-contact", "add ring.img 0 3 1 999 0"),
    ("add-contact-refused", "add ring.img 0 3 1 1000 0"),
    ("show-alarm", "show fresh1.img"),
    ("show-cabins", "show cabins.img"),
    ("show-ring", "show ring.img"),
    ("show-cleared", "show cleared.img"),
    ("show-contacts", "show contacts.img"),
    ("show-silent", "show silent.img"),
    ("show-unordered", "show unordered.img"),
    ("show-missing", "show missing.img"),
    ("show-folder", "show ."),
    ("show-damaged", "show target.img"),
    ("why-alarm", "why ring.img 0"),
    ("why-primary", "why ring.img 1"),
    ("why-chain", "why thirty.img 26"),
    ("why-free", "why ring.img 4"),
    ("why-65535", "why ring.img 65535"),
    ("why-first", "why flat.img 2"),
    ("why-after", "why flat.img 4"),
    ("why-before-anybody", "why flat.img 1"),
    ("why-never-rung", "why flat-cleared.img 3"),
    ("why-never-rung-behind", "why flat-cleared.img 5"),
    ("why-entered", "why silent.img 4"),
    ("why-never-entered", "why silent.img 6"),
    ("rung", "rung flat.img"),
    ("rung-cleared", "rung flat-cleared.img"),
    ("rung-silent", "rung silent.img"),
    ("rung-in-order", "rung thirty.img"),
    ("rung-nobody", "rung cleared.img"),
    ("rung-alarm", "rung fresh1.img"),
    ("rung-contact", "rung flat.img 0"),
    ("rung-contact-never", "rung flat-cleared.img 0"),
    ("rung-contact-of-two-steps", "rung silent.img 5"),
    ("rung-contact-of-no-step", "rung flat.img 10"),
    ("rung-no-number", "rung flat.img primary"),
    ("rung-damaged", "rung target.img"),
    ("risks", "risks flat.img"),
    ("risks-cleared", "risks flat-cleared.img"),
    ("risks-silent", "risks silent.img"),
    ("risks-ring", "risks ring.img"),
    ("risks-alarm", "risks fresh1.img"),
    ("risks-damaged", "risks target.img"),
    ("preview-all", "preview cabins.img 0 0"),
    ("preview-some", "preview thirty.img 0 0"),
    ("preview-none", "preview ring.img 0 0"),
    ("preview-weak", "preview ring.img 2 2"),
    ("preview-silenced", "preview flat.img 2 2"),
    ("preview-silenced-and-freed", "preview silent.img 8 2"),
    ("preview-step-first", "preview ring.img 4 4"),
    ("preview-bad-exit", "preview ring.img 0 4"),
    ("preview-empty-exit", "preview ring.img 0 3"),
    ("preview-no-exit", "preview ring.img 0"),
    ("preview-not-stored", "preview ring.img 0 0 -o /dev/null"),
    ("preview-damaged", "preview target.img 0 0"),
    ("clear-held", "clear ring.img 0 0"),
    ("clear-all", "clear cleared.img 0 1"),
    ("clear-weak", "clear ring.img 2 2"),
    ("clear-silenced", "clear flat.img 2 2"),
    ("clear-silenced-and-freed", "clear silent.img 8 2"),
    ("clear-silenced-one", "clear silent.img 9 0"),
    ("clear-step-first", "clear ring.img 4 4"),
    ("clear-bad-exit", "clear ring.img 0 4"),
    ("clear-empty-exit", "clear ring.img 0 3"),
    ("clear-with-slip", "clear cabins.img 0 0 --slip /dev/null"),
    ("clear-slip-refused", "clear ring.img 0 3 --slip /dev/null"),
    ("clear-slip-over-image", "clear ring.img 0 0 --slip ./ring.img"),
    ("clear-slip-folder", "clear ring.img 0 0 --slip ."),
    ("clear-slip-no-value", "clear ring.img 0 0 --slip"),
    ("take-back-freed", "take-back cabins-cleared.img cabins.slip"),
    ("take-back-held", "take-back cleared.img ring.slip"),
    ("take-back-twice", "take-back ring.img ring.slip"),
    ("take-back-other-plan", "take-back cleared.img cabins.slip"),
    ("take-back-no-slip", "take-back cleared.img ring.img"),
    ("take-back-damaged", "take-back target.img ring.slip"),
    ("take-back-missing", "take-back cleared.img missing.slip"),
    ("take-back-over-slip", "take-back cleared.img ring.slip -o ring.slip"),
    ("take-back-changed", "take-back ring.img cabins.slip"),
    ("trial", "trial ring.img 212"),
    ("trial-open-at-once", "trial cleared.img"),
    ("trial-contacts", "trial contacts.img 22"),
    ("trial-stopped", "trial ring.img 1111 --limit 3"),
    ("trial-round", "trial waits.img"),
    ("trial-refused", "trial ring.img 04"),
    ("trial-no-digit", "trial ring.img 0x"),
    ("squeeze", "squeeze squeezable.img 4"),
    ("squeeze-refused", "squeeze ring.img 3"),
    ("squeeze-cabins", "squeeze cabins-other.img 6 0/1 1/9 0/0 0/2"),
    ("squeeze-list-kept", "squeeze cabins.img 8"),
    ("squeeze-list-too-large", "squeeze cabins.img 5"),
    ("squeeze-bad-list", "squeeze cabins.img 4 4/3"),
    ("squeeze-past-a-limit", "squeeze cabins.img 8 0/1 0/1 0/1 0/1"),
    ("draw-over-image", "draw ring.img -o ./ring.img"),
    ("convert-up", "convert unordered.img 2"),
    ("convert-down", "convert ring-2.img 1"),
    ("convert-up-again", "convert ring-2.img 2"),
    ("convert-down-again", "convert unordered.img 1"),
    ("convert-cabins", "convert cabins.img 1"),
    ("convert-contacts", "convert contacts.img 1"),
    ("convert-old-contacts", "convert contacts-old.img 2"),
    ("convert-damaged", "convert target.img 2"),
    ("convert-mixed", "convert mixed.img 1"),
    ("convert-missing", "convert missing.img 2"),
    ("convert-edition-3", "convert ring.img 3"),
    ("convert-no-edition", "convert ring.img up"),
    ("diff-strengths", "diff twin.img twin-strengths.img"),
    ("diff-bits", "diff twin.img twin-bits.img"),
    ("diff-plans", "diff ring.img cleared.img"),
    ("diff-same", "diff ring.img unordered.img"),
    ("diff-editions", "diff ring.img ring-2.img"),
    ("diff-cabins", "diff cabins.img cabins-other.img"),
    ("line", "line raise 3 raise 12 next raise 1 next next"),
    ("line-round", "line raise 15 next raise 15 raise 0 raise 7 next next next"),
    ("line-twice", "line raise 4 raise 4 withdraw 9 withdraw 4 withdraw 4"),
    ("line-nobody", "line next"),
    ("line-refused", "line raise 16 raise 15 withdraw 65535 next next raise 0"),
    ("line-no-call", "line raise 3 lift 4"),
    ("line-no-cabin", "line raise 3 withdraw"),
    ("line-no-number", "line raise next"),
    ("line-past-16-bits", "line next raise 65536"),
    ("line-no-words", "line"),
    ("line-not-stored", "line raise 3 -o /dev/null"),
];

/// Images for `check`, and the status for each.
const CHECKED: [(&str, i32); 13] = [
    ("ring", 0),
    ("flat", 0),
    ("flat-cleared", 0),
    ("full", 0),
    ("unordered", 0),
    ("ring-2", 0),
    ("cabins", 0),
    ("contacts", 0),
    ("contacts-old", 1),
    ("cut", 1),
    ("target", 1),
    ("empty", 1),
    ("mixed", 1),
];

fn folder(name: &str) -> PathBuf {
    Path::new(env!("CARGO_MANIFEST_DIR")).join("tests").join(name)
}

fn image(name: &str) -> Vec<u8> {
    fs::read(folder("images").join(name)).unwrap()
}

/// The same image as it is written, in edition 2.
fn written(name: &str) -> Vec<u8> {
    let mut bytes = [0; IMAGE_MAX];
    let length = Table::load(&image(name)).unwrap().write_image(&mut bytes).unwrap();
    bytes[..length].to_vec()
}

/// The program, in the folder of images, with nothing to read.
fn plan(words: &[&str]) -> Command {
    let mut command = Command::new(env!("CARGO_BIN_EXE_plan"));
    command.args(words).current_dir(folder("images")).stdin(Stdio::null());
    command
}

fn output(command: &mut Command) -> Output {
    command.output().unwrap()
}

fn text(bytes: &[u8]) -> String {
    String::from_utf8_lossy(bytes).to_string()
}

/// Bytes as they are if they are text, else in hex, a record in a line.
fn readable(bytes: &[u8]) -> String {
    let hex = |bytes: &[u8]| bytes.iter().map(|byte| format!("{byte:02x} ")).collect::<String>();
    match String::from_utf8(bytes.to_vec()) {
        Ok(text) if !text.contains('\0') => text,
        _ => {
            let (header, step) = if bytes[0] == 10 { (10, 20) } else { (42, 22) };
            let (header, steps) = bytes.split_at(bytes.len().min(header));
            let lines = [header].into_iter().chain(steps.chunks(step)).map(hex);
            lines.map(|line| line.trim_end().to_string() + "\n").collect()
        }
    }
}

/// Holds a text to the stored one.
fn stored(name: &str, given: &str) {
    stored_in(&folder("outputs"), name, given);
}

fn stored_in(folder: &Path, name: &str, given: &str) {
    let path = folder.join(name);
    if std::env::var_os("STORE_OUTPUTS").is_some() {
        fs::write(&path, given).unwrap();
    }
    let kept = fs::read_to_string(&path).unwrap_or_default();
    assert!(given == kept, "{name} is\n{given}and was\n{kept}");
}

/// All that a run gave.
fn transcript(line: &str, given: &Output) -> String {
    let (out, err) = (readable(&given.stdout), readable(&given.stderr));
    let status = given.status.code().unwrap_or(-1);
    format!("plan {line}\nstandard output\n{out}standard error\n{err}status {status}\n")
}

/// A failure says one line on standard error and nothing on standard output, and has status 2.
fn is_failure(given: &Output) -> bool {
    let said = text(&given.stderr);
    let one = said.starts_with("plan: ") && said.ends_with('\n') && said.lines().count() == 1;
    one && given.stdout.is_empty() && given.status.code() == Some(2)
}

#[test]
fn outputs_as_stored() {
    for (name, line) in CASES {
        let given = output(&mut plan(&line.split_whitespace().collect::<Vec<_>>()));
        stored(&format!("{name}.txt"), &transcript(line, &given));
        assert!(given.status.code() != Some(2) || is_failure(&given), "{name}");
    }
    let outputs = fs::read_dir(folder("outputs")).unwrap().count();
    let others = CHECKED.len() + KEYED.len() + 2 * DRAWN.len() + ORDERS.len();
    assert_eq!(outputs, CASES.len() + others, "outputs that no test writes");
}

/// The pages of help are those that the script `plan` prints: one of all commands, and one for each.
#[test]
fn pages_of_help() {
    let pages = folder("../help");
    let hold = |name: &str, lines: &[&[&str]]| {
        let mut texts = lines.iter().map(|line| {
            let given = output(&mut plan(line));
            let said = (given.status.code(), text(&given.stderr));
            assert_eq!(said, (Some(0), String::new()), "{line:?}");
            text(&given.stdout)
        });
        let first = texts.next().unwrap();
        stored_in(&pages, &format!("{name}.txt"), &first);
        assert!(texts.all(|text| text == first), "{name}");
        first
    };
    let all: [&[&str]; 5] =
        [&["--help"], &["-h", "show"], &["help"], &["help", "help"], &["help", "--help"]];
    let overview = hold("help", &all);
    let commands: Vec<&str> = overview
        .lines()
        .filter_map(|line| line.strip_prefix("  ")?.split(' ').next())
        .filter(|name| !name.is_empty())
        .collect();
    for name in &commands {
        hold(name, &[&[name, "--help"], &["help", name], &[name, "x", "-h", "--"]]);
    }
    assert_eq!(fs::read_dir(pages).unwrap().count(), commands.len() + 1, "pages of no command");
    for line in [&["help", "shew"][..], &["shew", "--help"], &["show", "--", "--help"]] {
        assert!(is_failure(&output(&mut plan(line))), "{line:?}");
    }
}

#[test]
fn version() {
    let given = output(&mut plan(&["--version"]));
    assert_eq!(text(&given.stdout), format!("plan {}\n", env!("CARGO_PKG_VERSION")));
    assert_eq!((given.status.code(), text(&given.stderr)), (Some(0), String::new()));
}

#[test]
fn checks() {
    for (name, status) in CHECKED {
        let given = output(&mut plan(&["check", &format!("{name}.img")]));
        assert_eq!(given.status.code(), Some(status), "{name}");
        stored(&format!("check-{name}.txt"), &transcript(&format!("check {name}.img"), &given));
    }
}

const DRAWN: [&str; 7] =
    ["fresh1", "ring", "thirty", "cabins", "contacts", "flat-cleared", "silent"];

#[test]
fn pictures() {
    for name in DRAWN {
        for (ending, option) in [("svg", None), ("dot", Some("--dot"))] {
            let given = output(plan(&["draw", &format!("{name}.img")]).args(option));
            assert_eq!((given.status.code(), text(&given.stderr)), (Some(0), String::new()));
            stored(&format!("draw-{name}.{ending}"), &text(&given.stdout));
        }
    }
}

/// Key lines on an image: the name of the output, the image, the option, the lines.
const KEYED: [(&str, &str, &[&str], &[u8]); 7] = [
    ("key-nothing", "ring.img", &[], b""),
    ("key-visit", "fresh128.img", &["--skip-refused"], include_bytes!("../../../docs/visit.txt")),
    ("key-refused", "ring.img", &[], b"H*4A\nH*30003A\n\nH*30000A"),
    ("key-odd", "ring.img", &["--skip-refused"], b"H*4A\r\n\n\xff\0H*4A\nH*30012A\nH*30011A\n"),
    ("key-silenced", "silent.img", &[], b"H*30010A\nH*30001A\nH*30000A\n"),
    ("key-full", "full.img", &[], b"H*200000003A\nH*200010002A\nH*30000A\nH*30003A\n"),
    (
        "key-cabins",
        "cabins.img",
        &["--skip-refused"],
        b"H*100401007A\nH*30000A\nH*100401007A\nH*100411008A\nH*100421009A\n",
    ),
];

/// The program with these bytes as its input.
fn fed<'a>(command: &'a mut Command, input: &[u8]) -> &'a mut Command {
    use std::sync::atomic::{AtomicUsize, Ordering};
    static FILES: AtomicUsize = AtomicUsize::new(0);
    let number = FILES.fetch_add(1, Ordering::Relaxed);
    let path = scratch(&format!("input-{number}"));
    fs::write(&path, input).unwrap();
    command.stdin(File::open(path).unwrap())
}

/// A path for a test's own file, which an earlier run may have left there.
fn scratch(name: &str) -> PathBuf {
    let path = Path::new(env!("CARGO_TARGET_TMPDIR")).join(name);
    let _ = fs::remove_file(&path);
    path
}

/// An empty folder for a test's own files.
fn scratch_folder(name: &str) -> PathBuf {
    let folder = scratch(name);
    let _ = fs::remove_dir_all(&folder);
    fs::create_dir(&folder).unwrap();
    folder
}

#[test]
fn key_lines() {
    for (name, image, options, lines) in KEYED {
        let given = output(fed(plan(&["key", image]).args(options), lines));
        stored(&format!("{name}.txt"), &transcript(&format!("key {image}"), &given));
        assert!(given.status.success() != given.stdout.is_empty(), "{name}: image and status");
    }
}

/// The images that were keyed come out of their lines.
#[test]
fn keyed_images() {
    let keyed = ["ring", "thirty", "full", "squeezable", "waits", "contacts", "two-ways", "silent"];
    let keyed = keyed.map(|name| (name, image(&format!("{name}.keys"))));
    let flat = include_bytes!("../../../docs/flat.txt").to_vec();
    let cleared = [&flat[..], b"H*30022A\n"].concat();
    for (name, lines) in keyed.into_iter().chain([("flat", flat), ("flat-cleared", cleared)]) {
        let given = output(fed(&mut plan(&["key", "fresh128.img", "--edition", "2"]), &lines));
        assert!(given.status.success(), "{name}: {}", text(&given.stderr));
        assert_eq!(given.stdout, written(&format!("{name}.img")), "{name}");
        // and one says the edition
        assert_eq!(text(&given.stderr).lines().count(), text(&lines).lines().count() + 1);
    }
    assert_eq!(written("ring.img"), image("ring-2.img"));
}

/// The image of several cabins comes out of its commands, each on what the one before stored.
#[test]
fn cabins_one_by_one() {
    let path = scratch("cabins_one_by_one.img");
    let file = path.to_str().unwrap();
    let made = output(&mut plan(&["fresh", "8", "1/2", "4/6", "0/0", "0/5", "-o", file]));
    assert!(made.status.success(), "{}", text(&made.stderr));
    for line in ["0 0 1 0 0", "1 2 1 1 3", "1 1 3 60 3", "0 3 2 5 1"] {
        let words: Vec<&str> = ["add", file].into_iter().chain(line.split(' ')).collect();
        let added = output(plan(&words).args(["-o", file]));
        assert!(added.status.success(), "{line}: {}", text(&added.stderr));
    }
    let given = output(fed(&mut plan(&["key", file]), b"H*200000022A\n"));
    assert_eq!(given.stdout, image("cabins.img"), "{}", text(&given.stderr));
}

/// Conversions to the byte, there and back: an image of edition 1 is written as its table is, and comes back with its records sorted.
#[test]
fn conversions() {
    let path = scratch("conversions.img");
    let file = path.to_str().unwrap();
    let convert = |name: &str, edition: &str| {
        let given = output(&mut plan(&["convert", name, edition]));
        assert!(given.status.success(), "{name}: {}", text(&given.stderr));
        given.stdout
    };
    for name in ["fresh1", "ring", "cleared", "squeezable", "thirty", "full", "twin-bits"] {
        let name = format!("{name}.img");
        fs::write(&path, convert(&name, "2")).unwrap();
        assert_eq!((fs::read(&path).unwrap(), convert(file, "1")), (written(&name), image(&name)));
    }
    assert_eq!(convert("unordered.img", "2"), image("ring-2.img"));
    // the step records of edition 2 in another order
    let (header, steps) = (&image("ring-2.img")[..42], &image("ring-2.img")[42..]);
    fs::write(&path, [header, &steps[44..], &steps[..44]].concat()).unwrap();
    let stored = output(&mut plan(&["convert", file, "1", "-o", file]));
    let said = "edition 2, 130 bytes, to edition 1, 90 bytes\n";
    let said = format!("{said}stored in {file}, edition 1\n");
    assert_eq!((stored.status.code(), text(&stored.stderr)), (Some(0), said));
    assert!(is_failure(&output(&mut plan(&["convert", file, "1", "-o", file]))));
    assert_eq!(fs::read(&path).unwrap(), image("ring.img"));
}

/// What an image has that edition 1 cannot say: the first step of another cabin, else the first guarantee or limit; and the first contact above 99, with
/// the number of the others.
#[test]
fn needs_edition_2() {
    let path = scratch("needs_edition_2.img");
    let file = path.to_str().unwrap();
    let fresh = |list: &str| {
        output(plan(&["fresh", "8", "--force", "-o", file]).args(list.split_whitespace()))
    };
    let refused = |words: &str| {
        let given = output(&mut plan(&["convert", file, "1"]));
        assert!(is_failure(&given), "{words}");
        let said = text(&given.stderr);
        assert!(said.ends_with(&format!("cannot say; {words}\n")), "{said}");
    };
    let limit = "the limit of cabin 0 is 8, and in edition 1 it is 7";
    for (list, words) in [
        ("7/8", limit),
        ("0/7 7/7", "the guarantee of cabin 0 is 0, and in edition 1 it is 7"),
        ("7/7 0/0 0/1", "the limit of cabin 2 is 1, and in edition 1 it is 0"),
        ("0/0", "the guarantee of cabin 0 is 0, and in edition 1 it is 7"),
    ] {
        assert!(fresh(list).status.success(), "{list}");
        refused(words);
    }
    for (list, cabins) in [("", None), ("7/8", Some(limit))] {
        assert!(fresh(list).status.success(), "{list}");
        // steps, each at the answered exit of the one before, and those with larger contacts then
        for (step, kind, content, larger) in [
            ("0", "3", "600", None),
            ("1", "1", "99", None),
            ("2", "1", "999", Some("step 3 (contact 999)")),
            ("3", "2", "15", Some("step 3 (contact 999)")),
            ("4", "1", "100", Some("step 3 (contact 999) and 1 more step")),
            ("5", "1", "256", Some("step 3 (contact 999) and 2 more steps")),
        ] {
            let added = output(plan(&["add", file, step, "0", kind, content, "0", "-o"]).arg(file));
            assert!(added.status.success(), "{}", text(&added.stderr));
            let contacts =
                larger.map(|of| format!("{of}: an old telephone takes contacts up to 99"));
            let causes: Vec<String> =
                cabins.map(str::to_string).into_iter().chain(contacts).collect();
            match causes.is_empty() {
                true => assert!(output(&mut plan(&["convert", file, "1"])).status.success()),
                false => refused(&causes.join("; ")),
            }
        }
    }
}

/// A clearing with a slip gives the image and the slip, and is taken back by it: on standard output, and over the image itself.
#[test]
fn slips() {
    let (image_path, slip_path) = (scratch("slips.img"), scratch("slips.slip"));
    let (file, slip) = (image_path.to_str().unwrap(), slip_path.to_str().unwrap());
    for (name, cleared) in [("ring", "cleared"), ("cabins", "cabins-cleared")] {
        let name = format!("{name}.img");
        let given = output(&mut plan(&["clear", &name, "0", "0", "--force", "--slip", slip]));
        assert_eq!(given.stdout, image(&format!("{cleared}.img")), "{}", text(&given.stderr));
        assert!(text(&given.stderr).ends_with(&format!("slip stored in {slip}\n")));
        assert_eq!(fs::read(&slip_path).unwrap(), image(&name.replace("img", "slip")));
        fs::write(&image_path, &given.stdout).unwrap();
        let given = output(&mut plan(&["take-back", file, slip]));
        assert_eq!(given.stdout, image(&name), "{}", text(&given.stderr));
        assert!(output(&mut plan(&["take-back", file, slip, "-o", file])).status.success());
        assert_eq!(fs::read(&image_path).unwrap(), image(&name));
        let twice = output(&mut plan(&["take-back", file, slip, "-o", file]));
        let words = "slip not accepted; step 0 is not as the clearing left it";
        let words = format!("plan: {slip}: refused by 18: {words}\n");
        assert!(is_failure(&twice) && text(&twice.stderr) == words, "{}", text(&twice.stderr));
        assert_eq!(fs::read(&image_path).unwrap(), image(&name));
        // another content for step 0 in its old record
        let mut bytes = image(&name.replace("img", "slip"));
        bytes[14] = 1;
        fs::write(&slip_path, &bytes).unwrap();
        let damaged = output(&mut plan(&["take-back", &format!("{cleared}.img"), slip]));
        let words = "its old records give no sound table of whose clearing it is the slip\n";
        assert!(is_failure(&damaged) && text(&damaged.stderr).ends_with(words));
    }
}

/// Every exit of an image, cleared and taken back.
#[test]
fn every_clearing_taken_back() {
    let (image_path, slip_path) = (scratch("every.img"), scratch("every.slip"));
    let (file, slip) = (image_path.to_str().unwrap(), slip_path.to_str().unwrap());
    let mut counts = [0; 2];
    for (step, exit) in (0..5).flat_map(|step| (0..4).map(move |exit| (step, exit))) {
        let (step, exit) = (step.to_string(), exit.to_string());
        let _ = [&slip_path, &image_path].map(fs::remove_file);
        let given =
            output(plan(&["clear", "cabins.img", &step, &exit]).args(["--slip", slip, "-o", file]));
        counts[usize::from(given.status.success())] += 1;
        if !given.status.success() {
            assert!(is_failure(&given) && !slip_path.exists(), "exit {exit} of step {step}");
            continue;
        }
        let back = output(&mut plan(&["take-back", file, slip]));
        assert_eq!(back.stdout, image("cabins.img"), "exit {exit} of step {step}");
    }
    assert_eq!(counts, [15, 5]);
}

/// What a command says, but for the line that says where the image goes.
fn unplaced(given: &Output) -> String {
    let said = text(&given.stderr);
    let lines = said.lines().filter(|line| !line.ends_with(" to standard output"));
    lines.map(|line| format!("{line}\n")).collect()
}

/// Every exit of stored images: a preview names the steps of which the clearing says that they go, or is refused as it is. The image stays.
#[test]
fn every_preview() {
    let path = scratch("every_preview.img");
    let file = path.to_str().unwrap();
    // how the lines begin that say who is rung first and who is not rung any more
    const RINGING: [&str; 2] = ["first rung before: ", "no longer rung"];
    // clearings that are refused, that free no step, and that free some; and those with such lines
    let (mut seen, mut others) = ([0; 3], [0; 2]);
    for (name, steps) in
        [("ring", 5), ("cleared", 5), ("cabins", 6), ("thirty", 31), ("full", 2), ("silent", 15)]
    {
        let bytes = image(&format!("{name}.img"));
        fs::write(&path, &bytes).unwrap();
        for (step, exit) in (0..steps).flat_map(|step| (0..5).map(move |exit| (step, exit))) {
            let words = [file, &step.to_string(), &exit.to_string()];
            let [told, made] = ["preview", "clear"].map(|verb| output(plan(&[verb]).args(words)));
            assert_eq!(fs::read(&path).unwrap(), bytes);
            let (said, made) = (text(&told.stdout), unplaced(&made));
            let cleared = Exit::try_from(exit)
                .and_then(|exit| Table::load(&bytes).unwrap().clear(step, exit));
            let Ok(cleared) = cleared else {
                assert!(is_failure(&told) && text(&told.stderr) == made, "{name}: {said}");
                seen[0] += 1;
                continue;
            };
            let doubtful = format!("{} would be doubtful", count(cleared.doubtful.into(), "step"));
            let is_other = |line: &&str| !RINGING.iter().any(|start| line.starts_with(start));
            let cut = made.split_inclusive('\n').take_while(is_other).map(str::len).sum();
            let (made, ringing) = made.split_at(cut);
            let start = made.lines().next().unwrap();
            let expected = match made.split_once("of these go: ") {
                Some((_, go)) if go != "none\n" => {
                    format!("{start}\n{doubtful}\nof these would go: {go}")
                }
                _ => format!("{start}; {doubtful}, none would go; "),
            };
            for (count, start) in others.iter_mut().zip(RINGING) {
                *count += ringing.lines().filter(|line| line.starts_with(start)).count();
            }
            let ringing = ringing.replace(RINGING[1], "would no longer be rung");
            seen[if cleared.freed == 0 { 1 } else { 2 }] += 1;
            assert_eq!(said, expected + "the image is not changed\n" + &ringing, "{name}");
            assert_eq!((told.status.code(), told.stderr), (Some(0), vec![]), "{name}");
        }
    }
    assert_eq!((seen, others), ([233, 45, 42], [7, 21]));
}

/// The line results of each contact that can be rung, as digits: the trial with them is spent where that contact rings.
#[test]
fn every_way() {
    let mut spent = 0;
    for name in ["ring", "flat", "silent", "thirty", "full", "contacts"] {
        let name = format!("{name}.img");
        let page = text(&output(&mut plan(&["rung", &name])).stdout);
        for line in page.lines().filter(|line| line.contains(": rung ")) {
            let (step, way) = line.trim().split_once(": rung ").unwrap();
            let digits = way.strip_suffix(')').and_then(|way| way.rsplit_once('('));
            let digits = digits.map_or("", |(_, digits)| digits);
            assert_eq!(digits.is_empty(), way == "first of all", "{line}");
            let said = text(&output(&mut plan(&["trial", &name, digits])).stdout);
            assert!(
                said.contains(&format!(": {step} rings, and no line result is left\n")),
                "{said}"
            );
            spent += 1;
        }
    }
    assert_eq!(spent, 96);
}

/// Two clearings, each a step and an exit, on two-ways.img: the name of the output, the clearings. Where one is refused, the other freed its step.
const ORDERS: [(&str, [&str; 2]); 5] = [
    ("orders-strengths", ["1 1", "1 2"]),
    ("orders-bits", ["0 0", "0 1"]),
    ("orders-same", ["1 1", "2 1"]),
    ("orders-refused", ["0 0", "1 2"]),
    ("orders-refused-strengths", ["0 0", "1 1"]),
];

/// Two mechanics make the same two clearings, each in an order of their own, and the office compares the images.
#[test]
fn two_mechanics() {
    for (name, [a, b]) in ORDERS {
        let folder = scratch_folder("two_mechanics");
        fs::write(folder.join("two-ways.img"), image("two-ways.img")).unwrap();
        let lines = [
            format!("clear two-ways.img {a} -o one.img"),
            format!("clear one.img {b} -o one.img"),
            format!("clear two-ways.img {b} -o other.img"),
            format!("clear other.img {a} -o other.img"),
            "diff one.img other.img".to_string(),
        ];
        let session = lines.map(|line| {
            let words: Vec<&str> = line.split(' ').collect();
            transcript(&line, &output(plan(&words).current_dir(&folder)))
        });
        stored(&format!("{name}.txt"), &session.concat());
        fs::remove_dir_all(&folder).unwrap();
    }
}

/// Every two filled exits of stored images, cleared in both orders: the plans never differ, strengths and bits do for some.
#[test]
fn every_two_clearings() {
    for (name, refused, verdicts) in
        [("ring", 1, [15, 0, 0]), ("two-ways", 2, [18, 1, 2]), ("thirty", 52, [1282, 12, 32])]
    {
        let table = Table::load(&image(&format!("{name}.img"))).unwrap();
        let exits: Vec<_> = View::of(&table).links().map(|held| (held.step, held.exit)).collect();
        let (mut refusals, mut met) = (vec![], vec![]);
        for (at, &a) in exits.iter().enumerate() {
            for &b in &exits[at + 1..] {
                let [one, other] = [[a, b], [b, a]].map(|order| {
                    let mut after = table.clone();
                    refusals.extend(order.into_iter().filter_map(|(s, e)| after.clear(s, e).err()));
                    View::of(&after)
                });
                met.push(diff(&one, &other).0);
            }
        }
        assert_eq!(refusals, vec![Refusal::NotInUse; refused], "{name}");
        let kinds = [Verdict::Same, Verdict::OtherBits, Verdict::OtherStrengths];
        let counted = kinds.map(|kind| met.iter().filter(|&&verdict| verdict == kind).count());
        assert_eq!((counted, counted.iter().sum()), (verdicts, met.len()), "{name}");
    }
}

/// Sixteen cabins wait, and each raises its alarm again when it is served: they have their turns in order, again and again. A line for each call, and
/// status 1 where one is refused.
#[test]
fn sixteen_on_one_line() {
    let raises: String = (0..16).map(|cabin| format!(" raise {cabin}")).collect();
    let rounds: String = (0..4000).map(|call| format!(" next raise {}", call % 16)).collect();
    let line = format!("line{raises}{rounds}");
    let words: Vec<&str> = line.split(' ').collect();
    let given = output(&mut plan(&words));
    assert_eq!((given.status.code(), text(&given.stderr)), (Some(0), String::new()));
    let said = text(&given.stdout);
    let served = said.lines().filter_map(|line| line.strip_prefix("next          cabin "));
    for (call, line) in served.enumerate() {
        assert!(line.starts_with(&format!("{} is served; next in turn: ", call % 16)), "{line}");
    }
    assert_eq!(said.lines().count(), 16 + 2 * 4000);
    let turns: Vec<String> = (0..16).map(|cabin| cabin.to_string()).collect();
    assert!(said.ends_with(&format!("cabin 15 waits; next in turn: {}\n", turns.join(", "))));
    let refused = output(plan(&words).args(["raise", "16", "withdraw", "0"]));
    let end = "raise 16      refused by 20: cabin above 15\nwithdraw 0    cabin 0 withdraws; ";
    assert_eq!((refused.status.code(), text(&refused.stderr)), (Some(1), String::new()));
    let refused = text(&refused.stdout);
    assert!(refused.strip_prefix(&said).is_some_and(|more| more.starts_with(end)), "{refused}");
}

/// Where nobody hears any more that an image is stored, it is stored all the same, and the status says so.
#[test]
fn stored_unheard() {
    let path = scratch("stored_unheard.img");
    let mut command = plan(&["clear", "ring.img", "0", "0", "-o", path.to_str().unwrap()]);
    let mut child = command.stdout(Stdio::null()).stderr(Stdio::piped()).spawn().unwrap();
    let mut heard = [0; 8];
    child.stderr.take().unwrap().read_exact(&mut heard).unwrap();
    assert_eq!(&heard, b"clearing");
    assert!(child.wait().unwrap().success());
    assert_eq!(fs::read(&path).unwrap(), image("cleared.img"));
}

/// A slip and an image are stored both or not at all, and nothing is left beside them.
#[test]
fn stored_slips() {
    let folder = scratch_folder("stored_slips");
    let (image_path, slip_path) = (folder.join("plan.img"), folder.join("plan.slip"));
    let (file, slip) = (image_path.to_str().unwrap(), slip_path.to_str().unwrap());
    let other = folder.join("./plan.slip");
    let full = || File::options().write(true).open("/dev/full").unwrap();
    let clear = |exit, options: &[&str]| {
        let mut command = plan(&["clear", "ring.img", "0", exit]);
        command.args(options);
        command
    };
    let failures = [
        output(&mut clear("3", &["--slip", slip, "-o", file])),
        output(&mut clear("0", &["--slip", slip, "-o", other.to_str().unwrap()])),
        output(&mut clear("0", &["--slip", slip, "-o", "/proc/plan.img"])),
        output(&mut clear("0", &["--slip", "/proc/plan.slip", "-o", file])),
        output(&mut clear("0", &["--slip", slip, "-o", "/dev/full"])),
        output(&mut clear("0", &["--slip", "/dev/full", "-o", file])),
        output(clear("0", &["--slip", slip]).stdout(full())),
        output(clear("0", &["--slip", slip, "-o", file]).stderr(full())),
    ];
    for given in failures {
        assert_eq!(given.status.code(), Some(2), "{}", text(&given.stderr));
        assert_eq!(fs::read_dir(&folder).unwrap().count(), 0, "{}", text(&given.stderr));
    }
    fs::write(&slip_path, b"other").unwrap();
    fs::set_permissions(&slip_path, fs::Permissions::from_mode(0o640)).unwrap();
    assert!(is_failure(&output(&mut clear("3", &["--slip", slip]))));
    assert_eq!(fs::read(&slip_path).unwrap(), b"other");
    let given = output(&mut clear("0", &["--slip", slip, "-o", file]));
    let first = "first rung before: step 1 (contact 0, the primary); after: nobody";
    let silent = "contact 0 (the primary) at step 1 and contact 1 at step 2 (all still held)";
    let rung = format!("{first}\nno longer rung, whatever the line results: {silent}");
    let said = format!("of these go: none\n{rung}\nstored in {file}, edition 1\n");
    let said = format!("{said}slip stored in {slip}\n");
    assert!(given.status.success() && text(&given.stderr).ends_with(&said));
    assert_eq!(fs::read(&slip_path).unwrap(), image("ring.slip"));
    assert_eq!(fs::metadata(&slip_path).unwrap().permissions().mode() & 0o777, 0o640);
    assert_eq!(fs::read(&image_path).unwrap(), image("cleared.img"));
    assert_eq!(fs::read_dir(&folder).unwrap().count(), 2, "something was left beside the files");
    fs::remove_dir_all(&folder).unwrap();
}

/// -o stores what standard output would get, also over the image itself; a command that fails leaves the file as it was, and nothing beside it.
#[test]
fn stored_files() {
    let folder = scratch_folder("stored_files");
    let path = folder.join("plan.img");
    let file = path.to_str().unwrap();
    assert!(output(&mut plan(&["clear", "ring.img", "0", "0", "-o", file])).status.success());
    assert_eq!(fs::read(&path).unwrap(), image("cleared.img"));
    fs::write(&path, image("ring.img")).unwrap();
    fs::set_permissions(&path, fs::Permissions::from_mode(0o640)).unwrap();
    assert!(output(&mut plan(&["clear", file, "0", "0", "-o", file])).status.success());
    assert_eq!(fs::read(&path).unwrap(), image("cleared.img"));
    assert_eq!(fs::metadata(&path).unwrap().permissions().mode() & 0o777, 0o640);
    let refused = output(fed(&mut plan(&["key", file, "-o", file]), b"H*30001A\nH*30001A\n"));
    assert_eq!((refused.status.code(), refused.stdout), (Some(2), vec![]));
    assert!(is_failure(&output(&mut plan(&["squeeze", file, "0", "-o", file]))));
    assert!(is_failure(&output(&mut plan(&["draw", "cut.img", "-o", file]))));
    assert_eq!(fs::read(&path).unwrap(), image("cleared.img"));
    let nowhere = folder.join("nowhere.img");
    std::os::unix::fs::symlink("missing.img", &nowhere).unwrap();
    assert!(is_failure(&output(&mut plan(&["fresh", "4", "-o", nowhere.to_str().unwrap()]))));
    fs::remove_file(&nowhere).unwrap();
    let link = folder.join("link.img");
    std::os::unix::fs::symlink("plan.img", &link).unwrap();
    let made = output(&mut plan(&["fresh", "128", "--force", "-o", link.to_str().unwrap()]));
    assert!(made.status.success() && link.is_symlink(), "{}", text(&made.stderr));
    assert_eq!(fs::read(&path).unwrap(), written("fresh128.img"));
    assert!(output(&mut plan(&["draw", "ring.img", "--force", "-o", file])).status.success());
    assert_eq!(fs::read(&path).unwrap(), output(&mut plan(&["draw", "ring.img"])).stdout);
    assert_eq!(fs::read_dir(&folder).unwrap().count(), 2, "something was left beside the file");
    fs::remove_dir_all(&folder).unwrap();
}

/// What cannot be read or written is said, with a status other than 0.
#[test]
fn reading_and_writing_fail() {
    let full = || File::options().write(true).open("/dev/full").unwrap();
    for line in [
        "show ring.img",
        "draw full.img",
        "check ring.img",
        "preview ring.img 0 0",
        "preview cabins.img 0 0",
        "rung flat.img",
        "rung flat-cleared.img 0",
        "risks ring.img",
        "diff ring.img full.img",
        "line raise 3 next",
        "line next",
        "--help",
    ] {
        let words: Vec<&str> = line.split(' ').collect();
        assert!(is_failure(&output(plan(&words).stdout(full()))), "{line}");
    }
    for line in [
        "clear ring.img 0 0",
        "add ring.img 0 3 1 7 0",
        "fresh 4",
        "squeeze ring.img 9",
        "convert ring.img 2",
        "take-back cleared.img ring.slip",
        "key ring.img",
    ] {
        let words: Vec<&str> = line.split(' ').collect();
        let given = output(plan(&words).stdout(full()));
        assert_eq!(given.status.code(), Some(2), "{line}");
        assert!(text(&given.stderr).contains("plan: standard output"), "{line}");
        let unheard = output(plan(&words).stderr(full()));
        let said = line != "key ring.img";
        assert_eq!(
            (unheard.status.code(), unheard.stdout.is_empty()),
            (Some(if said { 2 } else { 0 }), said)
        );
        assert!(!output(plan(&words).args(["-o", "/dev/full"])).status.success(), "{line}");
    }
    assert!(is_failure(&output(plan(&["key", "ring.img"]).stdin(File::open("/").unwrap()))));
    for path in ["missing/plan.img", "/proc/plan.img", ".", ""] {
        let given = output(fed(&mut plan(&["key", "ring.img", "-o", path]), b"H*4A\n"));
        assert!(is_failure(&given), "{path} is told after the work: {}", text(&given.stderr));
    }
    assert!(
        Path::new("/dev/full").metadata().is_ok_and(|there| !there.is_file()),
        "/dev/full was replaced"
    );
}

/// Words of the command line that could make a second line, or hide in it, are shown in one.
#[test]
fn odd_words() {
    let odd = ["-a\nplan: b", "--\u{1b}[31m", "", " ", "\u{202e}", "-1", "+1", "1.0", "٣"];
    for word in odd {
        for line in [
            &[word][..],
            &["show", word],
            &["why", "ring.img", word],
            &["fresh", word],
            &["fresh", "8", word],
            &["add", "ring.img", "0", "3", "1", "7", word],
            &["convert", "ring.img", word],
            &["convert", word, "2"],
            &["take-back", "cleared.img", word],
            &["rung", word],
            &["rung", "ring.img", word],
            &["risks", word],
            &["preview", word, "0", "0"],
            &["preview", "ring.img", word, "0"],
            &["preview", "ring.img", "0", word],
            &["line", word],
            &["line", "raise", word],
            &["line", "next", word],
        ] {
            let given = output(&mut plan(line));
            assert!(is_failure(&given), "{line:?}: {}", text(&given.stderr));
            assert!(text(&given.stderr).trim_end().chars().all(|c| !c.is_control()), "{line:?}");
        }
    }
    let given = output(&mut plan(&["show", "--", "ring.img"]));
    assert_eq!(given.stdout, output(&mut plan(&["show", "ring.img"])).stdout);
}

/// A pipe with a name is opened once, and gets the image whole.
#[test]
fn named_pipes() {
    let pipe = scratch("pipe");
    assert!(Command::new("mkfifo").arg(&pipe).status().unwrap().success());
    let read = std::thread::spawn({
        let pipe = pipe.clone();
        move || fs::read(pipe).unwrap()
    });
    let given = output(&mut plan(&["clear", "ring.img", "0", "0", "-o", pipe.to_str().unwrap()]));
    assert!(given.status.success(), "{}", text(&given.stderr));
    assert_eq!(read.join().unwrap(), image("cleared.img"));
}

/// Files of every length near the ends, and without an end, are answered.
#[test]
fn long_files() {
    let path = scratch("long.img");
    let file = path.to_str().unwrap();
    for length in
        [0, 9, 10, 29, 30, 41, 42, 89, 91, 2570, 2858, 65_536, 1_310_710, 1_441_812, 3_000_000]
    {
        for mut bytes in [image("ring.img"), image("ring-2.img")] {
            bytes.resize(length, 0);
            fs::write(&path, &bytes).unwrap();
            assert!(is_failure(&output(&mut plan(&["show", file]))), "{length}");
            assert!(is_failure(&output(&mut plan(&["preview", file, "0", "0"]))), "{length}");
            assert!(is_failure(&output(&mut plan(&["convert", file, "1"]))), "{length}");
            assert!(is_failure(&output(&mut plan(&["convert", file, "2"]))), "{length}");
            assert_eq!(output(&mut plan(&["check", file])).status.code(), Some(1), "{length}");
        }
    }
    for length in [0, 5, 6, 50, 181, 183, 5638, 5639, 65_536, 65_718, 3_000_000] {
        let mut bytes = image("ring.slip");
        bytes.resize(length, 0);
        fs::write(&path, &bytes).unwrap();
        assert!(is_failure(&output(&mut plan(&["take-back", "cleared.img", file]))), "{length}");
    }
    assert!(is_failure(&output(&mut plan(&["take-back", "cleared.img", "/dev/zero"]))));
    assert!(is_failure(&output(&mut plan(&["show", "/dev/zero"]))));
    let line = [&vec![b'9'; 1 << 20][..], b"\nH*4A\n"].concat();
    let given = output(fed(&mut plan(&["key", "ring.img", "--skip-refused"]), &line));
    assert_eq!((given.status.code(), unplaced(&given).lines().count()), (Some(0), 2));
}

/// The program at a terminal, which the program `script` makes: the status, and all that was said there.
fn at_terminal(folder: &Path, line: &str, input: &[u8]) -> (Option<i32>, String) {
    let mut command = Command::new("script");
    let line = format!("{} {line}", env!("CARGO_BIN_EXE_plan"));
    command.args(["-qec", &line, "/dev/null"]).current_dir(folder);
    let given = output(fed(&mut command, input));
    (given.status.code(), text(&given.stdout).replace('\r', ""))
}

/// A terminal gets no image, and refused lines are passed over.
#[test]
fn at_a_terminal() {
    let at_terminal = |line: &str, input: &[u8]| {
        let (status, said) = at_terminal(&folder("images"), line, input);
        assert_eq!(status, Some(0), "{line}: {said}");
        said
    };
    for (line, end) in [("fresh 4", "3 free"), ("convert ring.img 2", "130 bytes")] {
        let said = at_terminal(line, b"");
        let nowhere = format!("{end}\nnot stored: -o FILE stores the new image\n");
        assert!(said.ends_with(&nowhere), "{said}");
    }
    let slip = scratch("at_a_terminal.slip");
    let said = at_terminal(&format!("clear ring.img 0 0 --slip {}", slip.display()), b"");
    let nowhere = "not stored: -o FILE stores the new image and the slip\n";
    assert!(said.ends_with(nowhere) && !slip.exists(), "{said}");
    let path = scratch("at_a_terminal.img");
    let line = format!("key ring.img -o {}", path.display());
    let said = at_terminal(&line, b"H*30003A\nH*30000A\n");
    assert!(said.contains("Ctrl-D ends and stores") && said.contains("refused by 6"), "{said}");
    assert!(said.ends_with(&format!("stored in {}, edition 1\n", path.display())), "{said}");
    assert_eq!(fs::read(&path).unwrap(), image("cleared.img"));
    let said = at_terminal("key ring.img", b"H*30000A\n");
    assert!(said.contains("-o FILE would store") && said.contains("not stored"), "{said}");
}
