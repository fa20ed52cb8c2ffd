//! What a command replaces: the file that it saw when it began, and no other. Someone else who changes it meanwhile is never undone, a plan or a slip that
//! was not read stays without --force, and an image keeps its edition.

use super::{at_terminal, fed, image, is_failure, output, plan, scratch_folder, text, written};
use std::fs::{self, File};
use std::io::{pipe, BufRead, BufReader, Write};
use std::path::{Path, PathBuf};
use std::process::{Child, ChildStderr, Output, Stdio};
use std::thread::sleep;
use std::time::{Duration, Instant};
use telephone::{Exit, Kind, Table};

/// A folder with a copy of these stored files, as a test may change them.
fn copies(name: &str, files: &[&str]) -> PathBuf {
    let folder = scratch_folder(name);
    for file in files {
        fs::write(folder.join(file), image(file)).unwrap();
    }
    folder
}

/// A command line in a folder.
fn run(folder: &Path, line: &str) -> Output {
    output(plan(&line.split(' ').collect::<Vec<_>>()).current_dir(folder))
}

/// The files of a folder, by name.
fn names(folder: &Path) -> Vec<String> {
    let names = fs::read_dir(folder)
        .unwrap()
        .map(|file| text(file.unwrap().file_name().as_encoded_bytes()));
    let mut names: Vec<String> = names.collect();
    names.sort();
    names
}

/// A session that has read its image and keyed a line, and goes on as long as its input is open.
struct Session {
    child: Child,
    said: BufReader<ChildStderr>,
}

impl Session {
    fn begin(folder: &Path, command: &str, line: &str) -> Session {
        let mut command = plan(&command.split(' ').collect::<Vec<_>>());
        let piped = command.current_dir(folder).stdin(Stdio::piped()).stderr(Stdio::piped());
        let mut child = piped.spawn().unwrap();
        writeln!(child.stdin.as_ref().unwrap(), "{line}").unwrap();
        let mut said = BufReader::new(child.stderr.take().unwrap());
        let mut answer = String::new();
        said.read_line(&mut answer).unwrap();
        assert!(answer.starts_with(line) && !answer.contains("refused"), "{answer}");
        Session { child, said }
    }

    /// The session's input ends: its status, and what it says then.
    fn end(mut self) -> (Option<i32>, String) {
        drop(self.child.stdin.take());
        let status = self.child.wait().unwrap().code();
        (status, self.said.lines().map(|line| line.unwrap() + "\n").collect())
    }
}

fn changed(file: &str) -> String {
    let what = "changed by someone else since it was read; nothing is stored";
    format!("plan: {file}: {what}: give the command again, or -o another file\n")
}

/// A slow session does not undo what a colleague stored meanwhile, with --force or without. Stored elsewhere, its own edit is not lost.
#[test]
fn a_slow_session_and_a_colleague() {
    let folder = copies("slow_session", &["ring.img"]);
    let before = image("ring.img");
    for options in ["", " --force"] {
        fs::write(folder.join("ring.img"), &before).unwrap();
        let line = format!("key ring.img{options} -o ring.img");
        let slow = Session::begin(&folder, &line, "H*100021005A");
        assert!(run(&folder, "add ring.img 0 3 1 7 0 -o ring.img").status.success());
        let colleague = fs::read(folder.join("ring.img")).unwrap();
        assert_ne!(colleague, before);
        assert_eq!(slow.end(), (Some(2), changed("ring.img")));
        assert_eq!(fs::read(folder.join("ring.img")).unwrap(), colleague);
    }
    let slow = Session::begin(&folder, "key ring.img -o mine.img", "H*100021005A");
    assert!(run(&folder, "clear ring.img 0 0 -o ring.img").status.success());
    assert_eq!(slow.end(), (Some(0), "stored in mine.img, edition 1\n".to_string()));
    assert_eq!(names(&folder), ["mine.img", "ring.img"]);
    fs::remove_dir_all(&folder).unwrap();
}

/// Every way in which the file can be another one than was read: other bytes in place, none, another file with other bytes, or with the same.
#[test]
fn changed_in_any_way() {
    let (ring, cleared) = (image("ring.img"), image("cleared.img"));
    let ways: [&dyn Fn(&Path); 4] = [
        &|file| fs::write(file, &cleared).unwrap(),
        &|file| fs::remove_file(file).unwrap(),
        &|file| replace(file, &cleared),
        &|file| replace(file, &ring),
    ];
    for (way, change) in ways.into_iter().enumerate() {
        let folder = copies("changed", &["ring.img"]);
        let file = folder.join("ring.img");
        let slow = Session::begin(&folder, "key ring.img -o ring.img", "H*30000A");
        change(&file);
        let there = fs::read(&file).ok();
        assert_eq!(slow.end(), (Some(2), changed("ring.img")), "{way}");
        assert_eq!(fs::read(&file).ok(), there, "{way}");
        assert_eq!(names(&folder).len(), usize::from(there.is_some()), "{way}");
    }
    // a link that leads elsewhere meanwhile
    let folder = copies("changed", &["ring.img", "cleared.img"]);
    let link = folder.join("link.img");
    std::os::unix::fs::symlink("ring.img", &link).unwrap();
    let slow = Session::begin(&folder, "key ring.img -o link.img", "H*30000A");
    fs::remove_file(&link).unwrap();
    std::os::unix::fs::symlink("cleared.img", &link).unwrap();
    assert_eq!(slow.end(), (Some(2), changed("link.img")));
    assert_eq!(
        ["ring.img", "cleared.img"].map(|name| fs::read(folder.join(name)).unwrap()),
        [ring, cleared]
    );
    fs::remove_dir_all(&folder).unwrap();
}

/// Puts another file in the place of one.
fn replace(file: &Path, bytes: &[u8]) {
    let other = file.with_extension("other");
    fs::write(&other, bytes).unwrap();
    fs::rename(other, file).unwrap();
}

/// Where nothing stood when the command began, nothing that came meanwhile is replaced, whatever it is.
#[test]
fn made_meanwhile() {
    let what = "made by someone else since the command began; nothing is stored";
    let said = format!("plan: new.img: {what}: give the command again, or -o another file\n");
    for options in ["", " --force"] {
        for bytes in [image("cabins.img"), b"words\n".to_vec(), vec![]] {
            let folder = copies("made_meanwhile", &["ring.img"]);
            let line = format!("key ring.img{options} -o new.img");
            let slow = Session::begin(&folder, &line, "H*30000A");
            fs::write(folder.join("new.img"), &bytes).unwrap();
            assert_eq!(slow.end(), (Some(2), said.clone()));
            assert_eq!(fs::read(folder.join("new.img")).unwrap(), bytes);
            assert_eq!(names(&folder), ["new.img", "ring.img"]);
            fs::remove_dir_all(&folder).unwrap();
        }
    }
}

/// The exits of step 0 at which contacts 1 to 4 were added.
fn contacts(image: &[u8]) -> [Option<Kind>; 4] {
    let table = Table::load(image).unwrap();
    let alarm = table.read(0).unwrap();
    Exit::ALL.map(|exit| alarm.exit(exit).map(|link| table.read(link.target).unwrap().kind))
}

/// Many times two or four at once, each with an edit of its own. Of those that have read one image, one stores its edit, and the others are refused.
#[test]
fn writers_that_have_read_one_image() {
    for writers in [2, 4] {
        for round in 0..20 {
            let folder = copies("writers", &["fresh128.img"]);
            let begin = |writer: usize| {
                let line = format!("H*1000{writer}100{}A", writer + 1);
                Session::begin(&folder, "key fresh128.img -o fresh128.img", &line)
            };
            let mut sessions: Vec<Session> = (0..writers).map(begin).collect();
            // all inputs end before one is waited for
            sessions.iter_mut().for_each(|session| drop(session.child.stdin.take()));
            let ends: Vec<_> = sessions.into_iter().map(Session::end).collect();
            let stored = (Some(0), "stored in fresh128.img, edition 1\n".to_string());
            let refused = (Some(2), changed("fresh128.img"));
            let of =
                |end: &(Option<i32>, String)| ends.iter().filter(|other| *other == end).count();
            assert_eq!((of(&stored), of(&refused)), (1, writers - 1), "{round}: {ends:?}");
            let writer = ends.iter().position(|end| *end == stored).unwrap();
            let mut expected = [None; 4];
            expected[writer] = Some(Kind::Contact(writer as u16 + 1));
            assert_eq!(contacts(&fs::read(folder.join("fresh128.img")).unwrap()), expected);
            assert_eq!(names(&folder), ["fresh128.img"]);
        }
    }
}

/// Four at once that start whenever they start, many times: each edit is in the file, or was refused.
#[test]
fn writers_at_once() {
    for _ in 0..40 {
        let folder = copies("at_once", &["fresh128.img"]);
        let begin = |exit: usize| {
            let line = format!("add fresh128.img 0 {exit} 1 {} 0 -o fresh128.img", exit + 1);
            let mut command = plan(&line.split(' ').collect::<Vec<_>>());
            command.current_dir(&folder).stderr(Stdio::piped()).spawn().unwrap()
        };
        let children: Vec<Child> = (0..4).map(begin).collect();
        let ends: Vec<Output> =
            children.into_iter().map(|child| child.wait_with_output().unwrap()).collect();
        let found = contacts(&fs::read(folder.join("fresh128.img")).unwrap());
        for (exit, (end, found)) in ends.iter().zip(found).enumerate() {
            let (said, contact) = (text(&end.stderr), Kind::Contact(exit as u16 + 1));
            match end.status.code() {
                Some(0) => assert_eq!(found, Some(contact), "{said}"),
                Some(2) => assert!(found.is_none() && said.ends_with(&changed("fresh128.img"))),
                other => panic!("{other:?}: {said}"),
            }
        }
        assert!(found.iter().any(Option::is_some));
    }
}

/// Waits until something is so, for some seconds.
fn becomes_so(so: impl FnMut() -> bool) -> bool {
    let (mut so, end) = (so, Instant::now() + Duration::from_secs(20));
    while !so() {
        if Instant::now() > end {
            return false;
        }
        sleep(Duration::from_millis(2));
    }
    true
}

/// Starts a command, and waits until it waits for a file that is locked: the system lists those who do.
fn waiting(folder: &Path, line: &str) -> Child {
    let mut command = plan(&line.split(' ').collect::<Vec<_>>());
    let child = command.current_dir(folder).stderr(Stdio::piped()).spawn().unwrap();
    let is_listed = |line: &str| {
        let mut words = line.split_whitespace().skip_while(|word| *word != "->");
        words.nth(4) == Some(&child.id().to_string())
    };
    let waits = || fs::read_to_string("/proc/locks").unwrap().lines().any(is_listed);
    assert!(becomes_so(waits), "{line}: does not wait");
    child
}

/// Locks a file, as another program does.
fn locked(file: PathBuf) -> File {
    let lock = File::open(file).unwrap();
    lock.lock().unwrap();
    lock
}

/// A command that waits for a file that another program has locked, until that does something and gives it free: its status, and its last line.
fn while_waiting(
    folder: &Path,
    line: &str,
    file: &str,
    meanwhile: impl Fn(),
) -> (Option<i32>, String) {
    let lock = locked(folder.join(file));
    let child = waiting(folder, line);
    meanwhile();
    lock.unlock().unwrap();
    let given = child.wait_with_output().unwrap();
    let said = text(&given.stderr);
    (given.status.code(), said.lines().last().unwrap_or_default().to_string())
}

/// An image and its slip are stored both or not at all, whichever of them someone else was faster with.
#[test]
fn an_image_and_its_slip() {
    let line = "clear ring.img 0 0 --slip ring.slip -o ring.img";
    let folder = copies("both", &["ring.img"]);
    let slip = folder.join("ring.slip");
    let (status, said) =
        while_waiting(&folder, line, "ring.img", || fs::write(&slip, b"other").unwrap());
    let end = "made by someone else since the command began; nothing is stored: give the command again, or --slip another file";
    assert_eq!((status, said), (Some(2), format!("plan: ring.slip: {end}")));
    assert_eq!(
        (fs::read(&slip).unwrap(), fs::read(folder.join("ring.img")).unwrap()),
        (b"other".to_vec(), image("ring.img"))
    );
    let (status, said) = while_waiting(&folder, line, "ring.slip", || {
        fs::write(folder.join("ring.img"), image("ring-2.img")).unwrap();
    });
    assert_eq!((status, said + "\n"), (Some(2), changed("ring.img")));
    assert_eq!(fs::read(&slip).unwrap(), b"other");
    let (status, said) = while_waiting(&folder, line, "ring.img", || ());
    assert_eq!((status, said.as_str()), (Some(0), "slip stored in ring.slip"));
    assert_eq!(fs::read(&slip).unwrap(), image("ring.slip"));
    assert_eq!(names(&folder), ["ring.img", "ring.slip"]);
    fs::remove_dir_all(&folder).unwrap();
}

/// Two runs, each of which stores its slip where the other stores its image, do not wait for each other: one is done, and the other is refused.
#[test]
fn crossed_places() {
    let folder = copies("crossed", &["ring.img"]);
    for name in ["a", "b"] {
        fs::write(folder.join(name), b"words").unwrap();
    }
    let lock = locked(folder.join("a"));
    let lines =
        ["-o a --slip b", "-o b --slip a"].map(|places| format!("clear ring.img 0 0 {places}"));
    let mut children = lines.map(|line| waiting(&folder, &line));
    lock.unlock().unwrap();
    let mut ended = || children.iter_mut().all(|child| child.try_wait().unwrap().is_some());
    if !becomes_so(&mut ended) {
        children.iter_mut().for_each(|child| child.kill().unwrap());
        panic!("both runs wait");
    }
    let mut statuses = children.map(|mut child| child.wait().unwrap().code());
    statuses.sort_unstable();
    assert_eq!((statuses, names(&folder).len()), ([Some(0), Some(2)], 3));
    fs::remove_dir_all(&folder).unwrap();
}

/// Two names of one file get an image and a slip.
#[test]
fn two_names_of_one_file() {
    let folder = copies("two_names", &["ring.img"]);
    fs::write(folder.join("a"), b"words").unwrap();
    fs::hard_link(folder.join("a"), folder.join("b")).unwrap();
    let mut command = plan(&"clear ring.img 0 0 -o a --slip b".split(' ').collect::<Vec<_>>());
    let mut child = command.current_dir(&folder).stderr(Stdio::null()).spawn().unwrap();
    if !becomes_so(|| child.try_wait().unwrap().is_some()) {
        child.kill().unwrap();
        panic!("it waits for itself");
    }
    assert_eq!(child.wait().unwrap().code(), Some(0));
    let stored = ["a", "b"].map(|name| fs::read(folder.join(name)).unwrap());
    assert_eq!(stored, ["cleared.img", "ring.slip"].map(image));
    fs::remove_dir_all(&folder).unwrap();
}

/// A part that another run left behind, or that a run on another machine is writing, is nobody else's.
#[test]
fn parts_of_others() {
    let folder = copies("parts", &["ring.img"]);
    let slow = Session::begin(&folder, "key ring.img -o ring.img", "H*30000A");
    let part = folder.join(format!(".plan-{}-0.part", slow.child.id()));
    fs::write(&part, b"other").unwrap();
    assert_eq!(slow.end(), (Some(0), "stored in ring.img, edition 1\n".to_string()));
    assert_eq!(fs::read(&part).unwrap(), b"other");
    assert_eq!(fs::read(folder.join("ring.img")).unwrap(), image("cleared.img"));
    fs::remove_dir_all(&folder).unwrap();
}

/// What stands at a place that a command did not read, and the words for it.
const HELD: [(&str, &str); 4] = [
    ("cabins.img", "a plan, edition 2, capacity 8: 5 steps in use, 3 free"),
    ("full.img", "a plan, edition 1, capacity 128: 128 steps in use, 0 free"),
    ("cut.img", "an image that is not accepted"),
    ("cabins.slip", "the slip of clearing exit 0 of step 0"),
];

/// Every command that stores something, where FILE is what it names.
const STORING: [&str; 9] = [
    "fresh 4 -o FILE",
    "key ring.img -o FILE",
    "add ring.img 0 3 1 7 0 -o FILE",
    "draw ring.img -o FILE",
    "draw ring.img --dot -o FILE",
    "clear ring.img 0 0 -o FILE",
    "clear ring.img 0 0 --slip FILE",
    "squeeze ring.img 9 -o FILE",
    "convert ring.img 2 -o FILE",
];

/// A plan or a slip that was not read stays without --force, and one line says what it is. With --force it is replaced; so is anything else without.
#[test]
fn another_plan_or_slip() {
    for line in STORING.iter().chain(&["take-back cleared.img ring.slip -o FILE"]) {
        for (name, what) in HELD {
            let folder = copies("another", &["ring.img", "cleared.img", "ring.slip", name]);
            let (line, all) = (line.replace("FILE", name), names(&folder));
            let given = run(&folder, &line);
            assert!(is_failure(&given), "{line}: {}", text(&given.stderr));
            let said = format!("plan: {name}: it holds {what}; --force replaces it\n");
            assert_eq!(text(&given.stderr), said, "{line}");
            assert_eq!(fs::read(folder.join(name)).unwrap(), image(name), "{line}");
            let forced = run(&folder, &format!("{line} --force"));
            assert!(forced.status.success(), "{line}: {}", text(&forced.stderr));
            assert_ne!(fs::read(folder.join(name)).unwrap(), image(name), "{line}");
            assert_eq!(names(&folder), all, "{line}");
        }
        // near an image or a slip, and neither: words, no bytes, a part of a header, a slip of no step, one cut short, and one without records
        let slip = image("ring.slip");
        let no_records = [&slip[..6], &vec![7; slip.len() - 6]].concat();
        let cut = &slip[..slip.len() - 1];
        for bytes in [b"words\n", &[][..], &[10, 0, 1], &[0; 6], cut, &no_records] {
            let folder = copies("another", &["ring.img", "cleared.img", "ring.slip"]);
            fs::write(folder.join("other"), bytes).unwrap();
            let given = run(&folder, &line.replace("FILE", "other"));
            assert!(given.status.success(), "{line}: {}", text(&given.stderr));
            assert_ne!(fs::read(folder.join("other")).unwrap(), bytes, "{line}");
        }
    }
}

/// What cannot come out as what stands there is refused before a line is read. Where it can, all lines are answered, and nothing is stored.
#[test]
fn refused_before_or_after_the_lines() {
    for (name, what) in HELD {
        let folder = copies("before_or_after", &["ring.img", name]);
        let mut command = plan(&["key", "ring.img", "-o", name]);
        let given = output(fed(command.current_dir(&folder), b"H*4A\nH*30000A\n"));
        let (said, lines) = (text(&given.stderr), if what.starts_with("a plan") { 3 } else { 1 });
        let refused = format!("plan: {name}: it holds {what}; --force replaces it\n");
        assert!(said.ends_with(&refused) && said.lines().count() == lines, "{said}");
        assert_eq!(given.status.code(), Some(2), "{name}");
        assert_eq!(fs::read(folder.join(name)).unwrap(), image(name));
    }
}

/// The same bytes may be stored again, and the image that was read may be replaced: by its path, past a link, and where a capacity has its name.
#[test]
fn the_same_again() {
    let folder = copies("again", &["ring.img"]);
    for line in STORING {
        let line = line.replace("FILE", "out");
        for _ in 0..2 {
            let given = run(&folder, &line);
            assert!(given.status.success(), "{line}: {}", text(&given.stderr));
        }
        fs::remove_file(folder.join("out")).unwrap();
    }
    std::os::unix::fs::symlink("ring.img", folder.join("link.img")).unwrap();
    for line in ["clear ring.img 0 0 -o link.img", "clear link.img 0 1 -o ./ring.img"] {
        let given = run(&folder, line);
        assert!(given.status.success(), "{line}: {}", text(&given.stderr));
    }
    fs::write(folder.join("4"), image("ring.img")).unwrap();
    assert!(is_failure(&run(&folder, "fresh 4 -o 4")));
    // no picture and no slip takes the place of the image that was read, with --force or without, and no image that of the slip
    for line in [
        "draw ring.img -o ring.img",
        "clear ring.img 0 0 --slip ring.img",
        "take-back ring.img 4 -o 4",
    ] {
        for options in ["", " --force"] {
            let given = run(&folder, &format!("{line}{options}"));
            assert!(
                is_failure(&given) && text(&given.stderr).contains("a file of its own"),
                "{line}"
            );
        }
    }
    fs::remove_dir_all(&folder).unwrap();
}

/// The edition of an image is kept where it can say the plan; else it is refused and said why, and nothing is stored. --edition asks for the other.
#[test]
fn editions_kept() {
    let why = "refused by 17: image needs edition 2: a cabin, guarantee, limit or contact that edition 1 cannot say";
    let refused = |line: &str, what: &str| {
        let folder = copies(
            "editions",
            &["ring.img", "ring-2.img", "cleared.img", "contacts.img", "cabins.img", "ring.slip"],
        );
        let all = names(&folder);
        let given = run(&folder, line);
        assert!(is_failure(&given), "{line}: {}", text(&given.stderr));
        assert_eq!(
            text(&given.stderr),
            format!("plan: {why}; {what}; --edition 2 stores it in edition 2\n")
        );
        assert_eq!(names(&folder), all);
    };
    let contact = "step 4 (contact 999): an old telephone takes contacts up to 99";
    for option in ["", " --edition 1"] {
        refused(&format!("add ring.img 0 3 1 999 0{option} -o new.img"), contact);
        let limit = "the guarantee of cabin 0 is 0, and in edition 1 it is 7";
        refused(&format!("squeeze ring.img 8 0/7{option} -o new.img"), limit);
    }
    refused(
        "fresh 8 0/7 --edition 1 -o new.img",
        "the guarantee of cabin 0 is 0, and in edition 1 it is 7",
    );
    refused("add ring-2.img 0 3 1 999 0 --edition 1", contact);
    let folder = copies("editions", &["ring.img", "ring-2.img", "cleared.img", "ring.slip"]);
    // the image comes out in edition 1 or 2
    let given = |line: &str, edition: u8| {
        let given = run(&folder, line);
        assert!(given.status.success(), "{line}: {}", text(&given.stderr));
        let said = format!("edition {edition} to standard output\n");
        assert!(text(&given.stderr).ends_with(&said), "{line}: {}", text(&given.stderr));
        assert_eq!(given.stdout[0], if edition == 1 { 10 } else { 42 }, "{line}");
        let stored = run(&folder, &format!("{line} --force -o new.img"));
        let said = format!("stored in new.img, edition {edition}\n");
        assert!(text(&stored.stderr).ends_with(&said), "{line}: {}", text(&stored.stderr));
        assert_eq!(fs::read(folder.join("new.img")).unwrap(), given.stdout, "{line}");
        given.stdout
    };
    for (name, kept) in [("ring.img", 1), ("ring-2.img", 2)] {
        for line in ["key NAME", "add NAME 0 3 1 7 0", "clear NAME 0 0", "squeeze NAME 9"] {
            let line = line.replace("NAME", name);
            let [first, second] =
                [1, 2].map(|edition| given(&format!("{line} --edition {edition}"), edition));
            assert_eq!(Table::load(&first), Table::load(&second), "{line}");
            assert_eq!(given(&line, kept), if kept == 1 { first } else { second });
        }
    }
    assert_eq!(given("take-back cleared.img ring.slip", 1), image("ring.img"));
    assert_eq!(given("take-back cleared.img ring.slip --edition 2", 2), written("ring.img"));
    assert_eq!((given("fresh 4", 2)[0], given("fresh 4 --edition 1", 1).len()), (42, 30));
    for option in ["3", "0", "one", "65536"] {
        assert!(is_failure(&run(&folder, &format!("fresh 4 --edition {option}"))), "{option}");
    }
    fs::remove_dir_all(&folder).unwrap();
}

/// A session whose plan the edition cannot say: all lines are answered, and nothing is stored. The other edition stores it.
#[test]
fn keyed_past_an_edition() {
    let folder = copies("keyed_past", &["ring.img"]);
    let slow = Session::begin(&folder, "key ring.img -o ring.img", "H*100031999A");
    let (status, said) = slow.end();
    assert!(
        status == Some(2) && said.starts_with("plan: refused by 17: ") && said.lines().count() == 1,
        "{said}"
    );
    assert_eq!(fs::read(folder.join("ring.img")).unwrap(), image("ring.img"));
    let slow = Session::begin(&folder, "key ring.img --edition 2 -o ring.img", "H*100031999A");
    assert_eq!(slow.end(), (Some(0), "stored in ring.img, edition 2\n".to_string()));
    fs::remove_dir_all(&folder).unwrap();
}

/// At a terminal no line is keyed for nothing: what cannot be stored in the end is said at once.
#[test]
fn keyed_at_a_terminal() {
    let folder = copies("keyed_at_a_terminal", &["ring.img", "cabins.img"]);
    let line = |options: &str| format!("key ring.img {options}");
    let (status, said) = at_terminal(&folder, &line("-o cabins.img"), b"H*30000A\n");
    let held = "cabins.img: it holds a plan, edition 2, capacity 8: 5 steps in use, 3 free";
    // the terminal shows what is keyed before or after that
    let refused = format!("plan: {held}; --force replaces it\n");
    assert!(status == Some(2) && said.contains(&refused), "{status:?}: {said}");
    assert!(!said.contains("cleared") && !said.contains("Ctrl-D"), "{said}");
    // a step that edition 1 cannot say, another one, neither, and the first again
    let keys = b"H*100031999A\nH*100401998A\nH*30003A\nH*100031999A\nH*30003A\n";
    let (status, said) = at_terminal(&folder, &line("-o ring.img"), keys);
    let answers = said.lines().filter(|line| line.contains("  ") || line.starts_with("this"));
    let unfit = answers.map(|line| line.starts_with("this cannot be stored: refused by 17: "));
    let expected = [false, true, false, false, false, true, false];
    assert_eq!(unfit.collect::<Vec<_>>(), expected, "{said}");
    assert!(status == Some(0) && said.ends_with("stored in ring.img, edition 1\n"), "{said}");
    let (_, said) = at_terminal(&folder, &line("--edition 2 -o ring.img"), keys);
    assert!(!said.contains("this cannot be stored"), "{said}");
    fs::remove_dir_all(&folder).unwrap();
}

/// Where the reader of a pipe has gone, nothing is said, and the status tells it.
#[test]
fn a_closed_pipe() {
    for line in ["draw full.img", "show ring.img", "clear ring.img 0 0", "--help", "line next"] {
        let (reader, writer) = pipe().unwrap();
        drop(reader);
        let given = output(plan(&line.split(' ').collect::<Vec<_>>()).stdout(writer));
        assert_eq!(given.status.code(), Some(2), "{line}");
        assert!(!text(&given.stderr).contains("plan: "), "{line}: {}", text(&given.stderr));
    }
}
