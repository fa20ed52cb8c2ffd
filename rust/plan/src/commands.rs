//! The commands. Each reads what it is given, asks the library, and only then writes.

use crate::files::{
    apart, broken_rule, edition_of, give, give_image, goes_nowhere, image_bytes, input,
    input_failed, load, nothing_held, print, refused_image, say, shown, slip_bytes,
};
use crate::{edition, next, number, Failure, Request};
use plan::change::{call, checked, cleared, foretold, taken_back, Change, Clearing};
use plan::check::{cabin_line, changed_since, unfit};
use plan::diff::{diff, Verdict};
use plan::draw::{as_dot, as_svg};
use plan::line::{answered, Call};
use plan::pages;
use plan::risks;
use plan::rung::{self, Rung, Viewed};
use plan::view::View;
use plan::words::{count, refused};
use std::collections::BTreeMap;
use std::ffi::{OsStr, OsString};
use std::io::{self, BufRead, BufReader, IsTerminal, Read};
use std::path::{Path, PathBuf};
use telephone::{
    convert_down, convert_up, raw, slip_length, sole_quotas, Line, Quota, Quotas, Refusal, Table,
    CABINS, IMAGE_MAX, PLACES, SLIP_MAX,
};

/// A command of the program.
pub struct Command {
    pub name: &'static str,
    /// The words that it takes; those in brackets may be left out, and those with dots may be more than one.
    words: &'static [&'static str],
    /// The options that it has, each with its value.
    pub options: &'static [&'static str],
    /// What it does, in a few words and at length.
    pub gist: &'static str,
    help: &'static str,
    pub run: fn(&Request) -> Result<u8, Failure>,
}

impl Command {
    /// The command line.
    pub fn usage(&self) -> String {
        let words = self.words.iter().map(|word| format!(" {word}"));
        let options = self.options.iter().map(|option| format!(" [{option}]"));
        [self.name.to_string()].into_iter().chain(words).chain(options).collect()
    }

    /// Its page of help.
    pub fn page(&self) -> String {
        let shared = SHARED.iter().filter(|(option, _)| self.options.contains(option));
        let shared: String = shared.map(|(_, help)| *help).collect();
        format!("usage: plan {}\n\n{}{shared}", self.usage(), self.help)
    }

    /// The files that it reads, of the words that it is given.
    pub fn files(&self, words: &[OsString]) -> Vec<PathBuf> {
        let named = self.words.iter().zip(words);
        named
            .filter(|(name, _)| ["IMAGE", "SLIP"].contains(name))
            .map(|(_, file)| file.into())
            .collect()
    }

    /// Whether it takes so many words.
    pub fn takes(&self, words: usize) -> bool {
        let least = self.words.iter().filter(|word| !word.starts_with('[')).count();
        let most = self.words.iter().map(|word| match *word {
            LIST => CABINS,
            CALLS => usize::MAX,
            _ => 1,
        });
        (least..=most.fold(0, usize::saturating_add)).contains(&words)
    }
}

const STORE: &str = "-o FILE";
const EDITION: &str = "--edition N";
const FORCE: &str = "--force";

/// What the pages of help say of options that several commands have.
const SHARED: [(&str, &str); 2] = [
    (
        EDITION,
        "
The image is stored in the edition that was read, and a fresh one in edition 2.
--edition N stores it in edition N, 1 or 2. What edition 1 cannot say is refused
by 17.
",
    ),
    (
        FORCE,
        "
Where someone else changed FILE since the command began, nothing is stored. A
plan or a slip that the command did not read is replaced only with --force.
",
    ),
];

/// Guarantees and limits, one for each cabin at most.
const LIST: &str = "[G/L ..]";

/// Calls on a dispatcher, as many as one likes.
const CALLS: &str = "CALL ..";

pub const COMMANDS: [Command; 17] = [
    Command {
        name: "fresh",
        words: &["CAPACITY", LIST],
        options: &[EDITION, FORCE, STORE],
        gist: "a new plan with the alarm alone",
        help: FRESH,
        run: fresh,
    },
    Command {
        name: "key",
        words: &["IMAGE"],
        options: &["--skip-refused", EDITION, FORCE, STORE],
        gist: "key lines from standard input, on a stored plan",
        help: KEY,
        run: key,
    },
    Command {
        name: "add",
        words: &["IMAGE", "STEP", "EXIT", "KIND", "CONTENT", "CABIN"],
        options: &[EDITION, FORCE, STORE],
        gist: "a step added for a cabin",
        help: ADD,
        run: add,
    },
    Command {
        name: "show",
        words: &["IMAGE"],
        options: &[],
        gist: "every cabin and every step in words",
        help: SHOW,
        run: show,
    },
    Command {
        name: "draw",
        words: &["IMAGE"],
        options: &["--dot", FORCE, STORE],
        gist: "a picture for a browser",
        help: DRAW,
        run: draw,
    },
    Command {
        name: "why",
        words: &["IMAGE", "STEP"],
        options: &[],
        gist: "what holds a step in use, and is it rung",
        help: WHY,
        run: why,
    },
    Command {
        name: "rung",
        words: &["IMAGE", "[CONTACT]"],
        options: &[],
        gist: "who can be rung, and who never is",
        help: RUNG,
        run: rung,
    },
    Command {
        name: "preview",
        words: &["IMAGE", "STEP", "EXIT"],
        options: &[],
        gist: "which steps clearing an exit would free",
        help: PREVIEW,
        run: preview,
    },
    Command {
        name: "risks",
        words: &["IMAGE"],
        options: &[],
        gist: "what clearing each exit would do, the worst first",
        help: RISKS,
        run: risks,
    },
    Command {
        name: "clear",
        words: &["IMAGE", "STEP", "EXIT"],
        options: &["--slip SLIP", EDITION, FORCE, STORE],
        gist: "what clearing an exit does",
        help: CLEAR,
        run: clear,
    },
    Command {
        name: "take-back",
        words: &["IMAGE", "SLIP"],
        options: &[EDITION, FORCE, STORE],
        gist: "a clearing taken back by its slip",
        help: TAKE_BACK,
        run: take_back,
    },
    Command {
        name: "trial",
        words: &["IMAGE", "[RESULTS]"],
        options: &["--limit N"],
        gist: "who rings, in which order",
        help: TRIAL,
        run: trial,
    },
    Command {
        name: "squeeze",
        words: &["IMAGE", "CAPACITY", LIST],
        options: &[EDITION, FORCE, STORE],
        gist: "the plan in a table of another capacity",
        help: SQUEEZE,
        run: squeeze,
    },
    Command {
        name: "convert",
        words: &["IMAGE", "EDITION"],
        options: &[FORCE, STORE],
        gist: "the image in the other edition",
        help: CONVERT,
        run: convert,
    },
    Command {
        name: "diff",
        words: &["A", "B"],
        options: &[],
        gist: "how two plans differ",
        help: DIFF,
        run: differ,
    },
    Command {
        name: "check",
        words: &["IMAGE"],
        options: &[],
        gist: "is the image accepted, and if not, why",
        help: CHECK,
        run: check,
    },
    Command {
        name: "line",
        words: &[CALLS],
        options: &[],
        gist: "sixteen cabins wait for one line",
        help: LINE,
        run: line,
    },
];

const KEY: &str = "\
Carries out key lines on a stored plan and answers each in words on standard
error. The new image goes to FILE, which may be IMAGE itself, or to standard
output. Where a line is refused, all lines are answered and nothing is stored;
with --skip-refused, and where the lines are keyed at a terminal, a refused
line changes nothing and the others count. The answer to a clearing names the
contacts that are no longer rung, whatever the line results.

  H*1 step exit kind content A  adds a step at an empty exit      H*100001000A
  H*2 step exit step exit A     copies an exit into an empty one  H*200000012A
  H*3 step exit A               clears an exit                    H*30000A
  H*4A                          says the counts

To lead an exit to a step, copy an exit that leads there already. Steps and
contents have three digits, exits and kinds one. Exits: 0 answered, 1 engaged,
2 no reply, 3 line fault. Kinds: 1 contact (0 to 999, 0 is the primary),
2 message (0 to 15), 3 wait (1 to 600 seconds). Key lines add for cabin 0.
";

/// What is said of contacts that no trial rings any more.
const NO_LONGER: &str = "no longer rung";

const ADD: &str = "\
Adds a step at an empty exit of STEP and charges it to CABIN, 0 to 7. What was
added is said on standard error; the new image goes to FILE, which may be IMAGE
itself, or to standard output; at a terminal it goes nowhere. Exits, kinds and
contents are those of key lines: plan key --help names them.
";

const PREVIEW: &str = "\
Says what clearing the exit would do: how many steps would be doubtful, and
which of them would go. The image is only read. The same plan clear, made next,
frees just these steps, and says what holds the others then. Where another
contact would be rung first, or nobody, that is said too, and so is every
contact that could be rung before and could not be after, whatever the line
results. Exits: 0 answered, 1 engaged, 2 no reply, 3 line fault.
";

const CLEAR: &str = "\
Says on standard error what clearing the exit does: which steps become
doubtful, which of them stay and what holds each then, which go, who is rung
first before and after where these differ, and who is no longer rung, whatever
the line results: a step may be held and never entered. The new image goes to
FILE, which may be IMAGE itself, or to standard output; at a terminal it goes
nowhere. plan preview says beforehand which steps would go, and gives no image.
With --slip, a slip of the clearing is stored in the file SLIP, by which plan
take-back takes it back. Exits: 0 answered, 1 engaged, 2 no reply, 3 line fault.
";

const TAKE_BACK: &str = "\
Takes back the clearing of which SLIP is the slip, and says on standard error
which steps are back in use, which are held as before, and who can be rung
again. The new image goes to FILE, which may be IMAGE itself, or to standard
output. Where a step of the slip is no longer as the clearing left it, or would
not fit in again, it is refused by 18; other steps may have changed.
";

const TRIAL: &str = "\
Goes through the plan from the alarm. RESULTS are the line results of the
contacts in the order in which they are rung, a digit each: 0 answered,
1 engaged, 2 no reply, 3 line fault. A contact uses up a result and goes on by
that exit; alarm, messages and waits go on by the answered exit. It ends open
at an empty exit, spent at a contact with no result left, and stopped after N
moves. N is 0 to 65535; where it is not given, it is 128 for each result and
128 more, at most 65535.
";

const SQUEEZE: &str = "\
Renumbers the steps in use from 0 upward in their order and gives the table
that capacity, and the guarantees and limits that G/L says, as for plan fresh.
Where none is given, they stay as they are; only a plan that cabin 0 has to
itself gets those of the new capacity. Which step has which number then is said
on standard error; the image goes to FILE, which may be IMAGE itself, or to
standard output.
";

const CONVERT: &str = "\
Converts an image to the other edition of the format. EDITION is the one to be
written: 1, for an old telephone, or 2. The plan and its strengths stay, and the
step records come out in ascending step number. Edition 1 has no cabins and no
contact above 99: an image is converted to it only where cabin 0 has the plan to
itself and no contact is larger. Where not, it is refused by 17, and what stands
in the way is said. Editions and lengths are said on standard error; the image
goes to FILE, which may be IMAGE itself, or to standard output.
";

const DRAW: &str = "\
A picture of the plan as SVG, which a browser opens: the alarm on top, strong
links solid, weak ones dashed. Links in exits that no trial takes are grey, and
a step that no trial enters has a dashed edge and says so. A step says its cabin
where that is not 0. With --dot the same for Graphviz. It goes to FILE, or to
standard output.
";

const DIFF: &str = "\
Whether two images are one table, one plan with other strengths, or two plans;
then cabin by cabin and step by step how they differ. A link is strong if its
bit is the own bit of the step that it leads to; bits may differ where strengths
do not. Images of one plan ring alike, and still do after the same edits, but a
slip may fit one of them alone. The same exits of an image, cleared in two
orders, leave one plan. Status 0 where the images are one table, whatever their
editions, 1 where not, 2 where one could not be read or is not accepted.
";

const CHECK: &str = "\
Accepted, with its edition, or the first rule of docs/IMAGE.md that is broken,
with the byte to look at. Where it is accepted and no line results ring the
primary, a second line says so. Status 0 where it is accepted, 1 where not,
2 where it could not be read.
";

const LINE: &str = "\
Makes calls on a fresh dispatcher, at which sixteen cabins, 0 to 15, wait for
one line. Each call is answered in words: what it did, and the cabins that wait
then, in the order in which they would be served. A refused call changes
nothing, and the others count. No image is read or written.

  raise CABIN     the cabin waits for the line
  withdraw CABIN  it waits no longer
  next            serves the first waiting cabin after the one last served,
                  going round; at a fresh dispatcher cabin 0 comes first

Status 0 where no call is refused, 1 where one is, 2 where a word is no call.
";

const FRESH: &str = "\
Makes a table of that capacity, 1 to 128, with step 0 alone in use. G/L is a
cabin's guarantee and limit in steps, as 10/40; up to eight are given, cabin 0
first, and a cabin with none has 0/0. No guarantee is above its limit, and all
together are below the capacity. Where none is given, cabin 0 has the plan to
itself: both are CAPACITY less 1. The image goes to FILE, or to standard output.
";

const SHOW: &str = "\
Every cabin that may have steps with its guarantee, its limit, the steps charged
to it and those still owed to it; every step in use with its cabin and its four
exits, each with its target and strength; then the free numbers. A step that no
trial enters is marked, and so is a link in an exit that none takes.
";

const WHY: &str = "\
A strong chain from step 0 that holds the step, and every other link to it. Then
whether some trial enters the step, which is a second thing: with the fewest
line results that do, or with the exit on that chain that is never taken. The
alarm, messages and waits go on by their answered exit alone.
";

const RUNG: &str = "\
Who can be rung. Each contact that some trial rings, with as few line results as
any that ring it, in words and as the digits that plan trial takes; then each
contact that none rings, with the exits that hold its step in use and why they
are never taken. The alarm, messages and waits go on by their answered exit
alone, so a step behind another exit of theirs may be held and never entered.
With CONTACT, a phone book number (0 is the primary), the steps of that contact
alone. Status 0: where CONTACT is given, it can be rung. 1: it is never rung, or
no step has it. 2: the image could not be read or is not accepted.
";

const RISKS: &str = "\
For every exit that holds a link: who would fall silent if it were cleared, so
that no line results ring them any more, and which steps would go. The worst
come first: those that silence the primary, then by the number of contacts
silenced, then by the number of steps freed, then by step and exit. The exits
whose clearing would do neither are counted in the last line. The image is only
read. plan preview says more about one exit.
";

/// The table of an image, and what stands in it.
fn viewed(path: &OsStr) -> Result<(Table, View), Failure> {
    let (table, view, _) = opened(path)?;
    Ok((table, view))
}

/// Guarantees and limits from cabin 0 on; the other list where none are given.
fn list(words: &[OsString], other: Quotas) -> Result<Quotas, Failure> {
    if words.is_empty() {
        return Ok(other);
    }
    let mut quotas = Quotas::default();
    for (quota, word) in quotas.iter_mut().zip(words) {
        *quota = pair(word)?;
    }
    Ok(quotas)
}

/// The list of a table in another capacity: where cabin 0 has the plan to itself, it keeps it so.
fn kept_list(view: &View, capacity: u16) -> Quotas {
    if view.quotas == sole_quotas(view.capacity) {
        sole_quotas(capacity)
    } else {
        view.quotas
    }
}

/// A guarantee and a limit.
fn pair(word: &OsStr) -> Result<Quota, Failure> {
    let Some((guarantee, limit)) = word.to_str().and_then(|word| word.split_once('/')) else {
        return Err(format!(
            "a guarantee and a limit are given as 10/40, and not as {}",
            shown(word)
        ));
    };
    let guarantee = number("the guarantee", OsStr::new(guarantee))?;
    Ok(Quota { guarantee, limit: number("the limit", OsStr::new(limit))? })
}

/// A refusal for the sake of the cabins, and the numbers of the cabin that stand against it, or what does not fit in the table asked for.
fn refused_for(refusal: Refusal, view: &View, cabin: Option<usize>) -> Failure {
    let why = match refusal {
        Refusal::CabinAtLimit | Refusal::StepsReserved => {
            cabin.map(|cabin| cabin_line(view, cabin))
        }
        Refusal::DoesNotFit | Refusal::BadCabins if cabin.is_none() => unfit(view),
        _ => None,
    };
    [Some(refused(refusal)), why].into_iter().flatten().collect::<Vec<_>>().join("; ")
}

/// The cabins, where the command line says what they get.
fn said_cabins(view: &View, words: &[OsString]) -> String {
    if words.is_empty() {
        String::new()
    } else {
        pages::cabins(view)
    }
}

/// The table of an image, what stands in it, and the image's edition.
fn opened(path: &OsStr) -> Result<(Table, View, u16), Failure> {
    let (table, edition) = load(path)?;
    let view = View::of(&table);
    Ok((table, view, edition))
}

/// The image of a table in the edition that the command line asks for, or else in this one.
fn image_in(request: &Request, read: u16, table: &Table) -> Result<Vec<u8>, Failure> {
    let (mut image, mut old) = ([0; IMAGE_MAX], [0; IMAGE_MAX]);
    let length = table.write_image(&mut image).map_err(refused)?;
    if request.edition.unwrap_or(read) == 2 {
        return Ok(image[..length].to_vec());
    }
    let length = convert_down(&image[..length], &mut old).map_err(|refusal| {
        let why = pages::needs_edition_2(&View::of(table));
        format!("{}; {why}; --edition 2 stores it in edition 2", refused(refusal))
    })?;
    Ok(old[..length].to_vec())
}

/// Says words, and gives the image of a table in such an edition.
fn give_table(request: &Request, words: &str, read: u16, table: &Table) -> Result<(), Failure> {
    give_image(request, words, &image_in(request, read, table)?, &[])
}

fn fresh(request: &Request) -> Result<u8, Failure> {
    let (capacity, pairs) = (number("the capacity", &request.words[0])?, &request.words[1..]);
    let quotas = list(pairs, sole_quotas(capacity))?;
    let table = Table::fresh(capacity, &quotas).map_err(|refusal| {
        let view = View { capacity, last: 0, quotas, steps: BTreeMap::new() };
        refused_for(refusal, &view, None)
    })?;
    let view = View::of(&table);
    let words = format!("{}\n{}", pages::numbers(&view), said_cabins(&view, pairs));
    give_table(request, &words, 2, &table)?;
    Ok(0)
}

fn add(request: &Request) -> Result<u8, Failure> {
    let (table, before, edition) = opened(&request.words[0])?;
    let step = number("the step", &request.words[1])?;
    let exit = number("the exit", &request.words[2])?;
    let kind = number("the kind", &request.words[3])?;
    let content = number("the content", &request.words[4])?;
    let cabin = number("the cabin", &request.words[5])?;
    let added = call(&table, |table| raw::add(table, step, exit, kind, content, cabin));
    let (table, answer) =
        added.map_err(|refusal| refused_for(refusal, &before, Some(cabin.into())))?;
    let after = View::of(&table);
    let words = format!("{}\n", pages::answered(&after, &checked(&before, &after, answer)?));
    give_table(request, &words, edition, &table)?;
    Ok(0)
}

fn show(request: &Request) -> Result<u8, Failure> {
    let (table, view) = viewed(&request.words[0])?;
    print(&pages::show(&view, &Rung::of(&table, &view)?))?;
    Ok(0)
}

fn draw(request: &Request) -> Result<u8, Failure> {
    apart("a picture", &request.output, Path::new(&request.words[0]))?;
    nothing_held(request)?;
    let (table, view) = viewed(&request.words[0])?;
    let name = Path::new(&request.words[0]).file_name().unwrap_or_default().to_string_lossy();
    let drawn = if request.dot { as_dot } else { as_svg };
    give(request, &drawn(&name, &view, &Rung::of(&table, &view)?))?;
    Ok(0)
}

fn why(request: &Request) -> Result<u8, Failure> {
    let (table, view) = viewed(&request.words[0])?;
    let step = number("the step", &request.words[1])?;
    table.read(step).map_err(refused)?;
    let rung = Rung::of(&table, &view)?;
    print(&pages::why(&view, step, &rung, &rung.fewest(&table, &view)?))?;
    Ok(0)
}

fn rung(request: &Request) -> Result<u8, Failure> {
    let (table, view) = viewed(&request.words[0])?;
    let entry = request.words.get(1).map(|word| number("the contact", word)).transpose()?;
    let rung = Rung::of(&table, &view)?;
    print(&pages::rung(&view, &rung, &rung.fewest(&table, &view)?, entry))?;
    Ok(u8::from(entry.is_some_and(|entry| !rung.rings(entry))))
}

fn risks(request: &Request) -> Result<u8, Failure> {
    let (table, view) = viewed(&request.words[0])?;
    print(&pages::risks(&risks::risks(&table, &view)?))?;
    Ok(0)
}

/// The table of an image, what stands in it, and the step and the exit of a command line.
fn exit_of(request: &Request) -> Result<(Table, View, u16, u16), Failure> {
    let (table, view) = viewed(&request.words[0])?;
    let (step, exit) = place_of(request)?;
    Ok((table, view, step, exit))
}

/// The step and the exit of a command line.
fn place_of(request: &Request) -> Result<(u16, u16), Failure> {
    Ok((number("the step", &request.words[1])?, number("the exit", &request.words[2])?))
}

fn preview(request: &Request) -> Result<u8, Failure> {
    let (table, view, step, exit) = exit_of(request)?;
    let (after, seen, clearing) = foretold(&table, &view, step, exit)?;
    let tables = [(&table, &view), (&after, &seen)];
    let ringing = ringing("would no longer be rung", &clearing, tables)?;
    print(&(pages::preview(&view, &clearing) + &ringing))?;
    Ok(0)
}

/// Who is rung first before and after a clearing where they differ, and who falls silent by it.
fn ringing(words: &str, clearing: &Clearing, tables: [Viewed; 2]) -> Result<String, Failure> {
    let [before, after] = tables;
    let silenced = pages::silenced(words, clearing, &rung::silent(before, after)?);
    let first = [rung::first(before.0)?, rung::first(after.0)?];
    Ok(pages::ringing(before.1, first, silenced))
}

fn clear(request: &Request) -> Result<u8, Failure> {
    let (table, before, edition) = opened(&request.words[0])?;
    let (step, exit) = place_of(request)?;
    let mut slip = [0; SLIP_MAX];
    let made = call(&table, |table| match request.slip {
        Some(_) => raw::clear_with_slip(table, step, exit, &mut slip),
        None => raw::clear(table, step, exit),
    });
    let (after, answer) = made.map_err(refused)?;
    let slip = &slip[..slip_length(&slip).unwrap_or(0)];
    let view = View::of(&after);
    let clearing = cleared(&before, &view, answer)?;
    let back = || call(&after, |after| raw::take_back(after, slip));
    if request.slip.is_some() && back() != Ok((table.clone(), (answer.1, 0))) {
        return Err("the slip does not take the clearing back".to_string());
    }
    let ringing = ringing(NO_LONGER, &clearing, [(&table, &before), (&after, &view)])?;
    let words = pages::cleared(&before, &view, &clearing) + &ringing;
    give_image(request, &words, &image_in(request, edition, &after)?, slip)?;
    Ok(0)
}

fn take_back(request: &Request) -> Result<u8, Failure> {
    let (table, before, edition) = opened(&request.words[0])?;
    let name = &request.words[1];
    apart("an image", &request.output, Path::new(name))?;
    let slip = slip_bytes(Path::new(name))?;
    let taken = call(&table, |table| raw::take_back(table, &slip));
    let (back, answer) = taken.map_err(|refusal| {
        format!("{}: {}; {}", shown(name), refused(refusal), why_not_taken_back(&table, &slip))
    })?;
    let after = View::of(&back);
    let clearing = taken_back(&before, &after, answer)?;
    let again = rung::silent((&back, &after), (&table, &before))?;
    let words = pages::taken_back(&after, &clearing, &again);
    give_table(request, &words, edition, &back)?;
    Ok(0)
}

/// What to look at where a slip is not accepted: its length, or the first step that is not as its new record says.
fn why_not_taken_back(table: &Table, slip: &[u8]) -> String {
    let wanted = slip_length(slip);
    if wanted != Some(slip.len()) {
        return format!("it has {}, and is no whole slip", count(slip.len(), "byte"));
    }
    let mut image = [0; IMAGE_MAX];
    let length = table.write_image(&mut image).unwrap_or(0);
    match changed_since(&image[..length], slip) {
        Some(step) => format!("step {step} is not as the clearing left it"),
        None => "its old records give no sound table of whose clearing it is the slip".to_string(),
    }
}

fn trial(request: &Request) -> Result<u8, Failure> {
    let (table, view) = viewed(&request.words[0])?;
    let results = results(request.words.get(1).map_or(OsStr::new(""), |word| word))?;
    let steps = u16::try_from(PLACES).unwrap_or(u16::MAX);
    let enough =
        u16::try_from(results.len()).unwrap_or(u16::MAX).saturating_add(1).saturating_mul(steps);
    let limit = request.limit.unwrap_or(enough);
    let mut trace = vec![0; limit.into()];
    let answer = table.trial(limit, &results, &mut trace).map_err(refused)?;
    trace.truncate(answer.moves.into());
    print(&pages::trial(&view, &results, &trace, answer))?;
    Ok(0)
}

/// Line results, a digit each.
fn results(word: &OsStr) -> Result<Vec<u8>, Failure> {
    let digit = |byte: &u8| byte.is_ascii_digit().then(|| byte - b'0');
    let digits = word.as_encoded_bytes().iter().map(digit).collect::<Option<_>>();
    digits
        .ok_or_else(|| format!("results are a digit each, and {} has something else", shown(word)))
}

fn squeeze(request: &Request) -> Result<u8, Failure> {
    let (table, before, edition) = opened(&request.words[0])?;
    let (capacity, pairs) = (number("the capacity", &request.words[1])?, &request.words[2..]);
    let quotas = list(pairs, kept_list(&before, capacity))?;
    let squeezed = call(&table, |table| raw::squeeze(table, capacity, &quotas));
    let (table, _) = squeezed.map_err(|refusal| {
        refused_for(refusal, &View { capacity, quotas, ..before.clone() }, None)
    })?;
    let after = View::of(&table);
    let words = pages::squeezed(&before, &after) + &said_cabins(&after, pairs);
    give_table(request, &words, edition, &table)?;
    Ok(0)
}

fn convert(request: &Request) -> Result<u8, Failure> {
    let name = &request.words[0];
    let bytes = image_bytes(Path::new(name))?;
    let to = edition(&request.words[1])?;
    let mut image = [0; IMAGE_MAX];
    let converted = match to {
        1 => convert_down(&bytes, &mut image),
        _ => convert_up(&bytes, &mut image),
    };
    let length = converted
        .map_err(|refusal| refused_image(name, refusal, &why_not_converted(&bytes, to, refusal)))?;
    let (image, from) = (&image[..length], edition_of(&bytes)?);
    if Table::load(image) != Table::load(&bytes) || edition_of(image)? != to {
        return Err("the image converted is another table, or of another edition".to_string());
    }
    let given = bytes.len();
    let words = format!("edition {from}, {given} bytes, to edition {to}, {length} bytes\n");
    give_image(request, &words, image, &[])?;
    Ok(0)
}

/// What to look at in an image that the library does not convert to an edition. One that it loads and yet does not accept here is of that edition.
fn why_not_converted(bytes: &[u8], to: u16, refusal: Refusal) -> String {
    match (Table::load(bytes), refusal) {
        (Ok(table), Refusal::NeedsEdition2) => pages::needs_edition_2(&View::of(&table)),
        (Ok(_), Refusal::NotAccepted) => format!("it is of edition {to} already"),
        _ => broken_rule(bytes),
    }
}

fn differ(request: &Request) -> Result<u8, Failure> {
    let (first, a) = viewed(&request.words[0])?;
    let (second, b) = viewed(&request.words[1])?;
    let (verdict, lines) = diff(&a, &b);
    if (first == second) != (verdict == Verdict::Same) {
        return Err("the tables differ where nothing was compared".to_string());
    }
    let lines: String = lines.iter().map(|line| format!("{line}\n")).collect();
    print(&format!("{}\n{lines}", verdict.words()))?;
    Ok(u8::from(verdict != Verdict::Same))
}

fn check(request: &Request) -> Result<u8, Failure> {
    let bytes = image_bytes(Path::new(&request.words[0]))?;
    match Table::load(&bytes) {
        Ok(table) => {
            let (edition, view) = (edition_of(&bytes)?, View::of(&table));
            let primary = pages::silent_primary(&view, &Rung::of(&table, &view)?);
            print(&format!("accepted, edition {edition}: {}\n{primary}", pages::numbers(&view)))?;
            Ok(0)
        }
        Err(refusal) => {
            print(&format!("not accepted ({}): {}\n", refusal.number(), broken_rule(&bytes)))?;
            Ok(1)
        }
    }
}

fn line(request: &Request) -> Result<u8, Failure> {
    let calls = calls(&request.words)?;
    let (mut line, mut page, mut status) = (Line::fresh(), String::new(), 0);
    // each time round: the dispatcher is as the calls so far left it
    for call in calls {
        let words = match call.made(&line) {
            Ok((after, cabin)) => {
                let before = std::mem::replace(&mut line, after);
                answered(&before, &line, call, cabin)?
            }
            Err(refusal) => {
                status = 1;
                refused(refusal)
            }
        };
        page += &format!("{:<12}  {words}\n", call.to_string());
    }
    print(&page)?;
    Ok(status)
}

/// The calls that words say.
fn calls(words: &[OsString]) -> Result<Vec<Call>, Failure> {
    let (mut calls, mut words) = (Vec::new(), words.iter());
    while let Some(word) = words.next() {
        let name = word.to_str().unwrap_or_default();
        let mut cabin = || number("the cabin", next(name, words.next())?);
        calls.push(match name {
            "raise" => Call::Raise(cabin()?),
            "withdraw" => Call::Withdraw(cabin()?),
            "next" => Call::Next,
            _ => return Err(format!("no call {}; plan line --help names them", shown(word))),
        });
    }
    Ok(calls)
}

fn key(request: &Request) -> Result<u8, Failure> {
    let (mut table, mut view, edition) = opened(&request.words[0])?;
    let input = input()?;
    let at_terminal = input.is_terminal();
    let skip = request.skip_refused || at_terminal;
    if at_terminal {
        nothing_held(request)?;
        let end =
            if goes_nowhere(request) { "ends; -o FILE would store" } else { "ends and stores" };
        say(&format!("a key line, then Enter; Ctrl-D {end} (plan key --help names the lines)\n"))?;
    }
    let mut input = BufReader::new(input);
    let mut line = Vec::new();
    let mut refusals = 0;
    let mut ended = false;
    let mut fits = true;
    // each time round: the table and the view are as the lines so far left them
    while !ended && next_line(&mut input, &mut line, &mut ended).map_err(input_failed)? {
        let words = match call(&table, |table| raw::key_line(table, &line)) {
            Ok((after, answer)) => {
                let seen = View::of(&after);
                let change = checked(&view, &seen, answer)?;
                let silenced = match &change {
                    Change::Cleared(clearing) => {
                        let silent = rung::silent((&table, &view), (&after, &seen))?;
                        pages::silenced(NO_LONGER, clearing, &silent)
                    }
                    _ => None,
                };
                (table, view) = (after, seen);
                let words = [Some(pages::answered(&view, &change)), silenced];
                words.into_iter().flatten().collect::<Vec<_>>().join("; ")
            }
            Err(refusal) => {
                refusals += 1;
                refused(refusal)
            }
        };
        say(&format!("{:<12}  {words}\n", pages::line(&line)))?;
        // at a terminal it is said at once, while the line can be taken back
        let unfit = at_terminal.then(|| image_in(request, edition, &table).err()).flatten();
        if let Some(failure) = unfit.as_ref().filter(|_| fits) {
            say(&format!("this cannot be stored: {failure}\n"))?;
        }
        fits = unfit.is_none();
    }
    if refusals > 0 && !skip {
        return Err(format!("{} refused: nothing is stored", count(refusals, "line")));
    }
    give_table(request, "", edition, &table)?;
    Ok(0)
}

/// Bytes of a line that are kept: more than a key line has, so that what is dropped of a longer one changes no answer.
const KEPT: u64 = 64;

/// Reads a line, without its byte 10, in place of the one before; false where there is none. Says whether the input ended: past its end nothing is read,
/// since a terminal would go on.
fn next_line(input: &mut impl BufRead, line: &mut Vec<u8>, ended: &mut bool) -> io::Result<bool> {
    line.clear();
    *ended = !part(input, line, KEPT)?;
    let some = !line.is_empty();
    if line.last() == Some(&b'\n') {
        line.pop();
        return Ok(true);
    }
    // the rest of a long line, a part at a time
    let mut rest = Vec::new();
    while !*ended && rest.last() != Some(&b'\n') {
        rest.clear();
        *ended = !part(input, &mut rest, 4096)?;
    }
    Ok(some)
}

/// Reads so many bytes, or up to a byte 10; false where the input ended before.
fn part(input: &mut impl BufRead, bytes: &mut Vec<u8>, most: u64) -> io::Result<bool> {
    input.take(most).read_until(b'\n', bytes)?;
    Ok(bytes.last() == Some(&b'\n') || bytes.len() as u64 == most)
}

#[cfg(test)]
mod tests {
    use super::*;

    /// A terminal: it gives these bytes, a part at each reading, and goes on after an end.
    struct Terminal(Vec<&'static [u8]>);

    impl Read for Terminal {
        fn read(&mut self, buffer: &mut [u8]) -> io::Result<usize> {
            let part = self.0.remove(0);
            buffer[..part.len()].copy_from_slice(part);
            Ok(part.len())
        }
    }

    /// The lines of an input up to its end, and the parts that are left.
    fn lines(parts: Vec<&'static [u8]>) -> (Vec<Vec<u8>>, usize) {
        let (mut input, mut ended) = (BufReader::new(Terminal(parts)), false);
        let (mut line, mut lines) = (Vec::new(), Vec::new());
        while !ended && next_line(&mut input, &mut line, &mut ended).unwrap() {
            lines.push(line.clone());
        }
        (lines, input.into_inner().0.len())
    }

    #[test]
    fn nothing_is_read_past_the_end() {
        let told = |parts| {
            let (lines, left) = lines(parts);
            (lines.iter().map(|line| line.len()).collect::<Vec<_>>(), left)
        };
        assert_eq!(told(vec![b"", b"H*4A\n"]), (vec![], 1));
        assert_eq!(told(vec![b"H*4A", b"", b"H*4A\n"]), (vec![4], 1));
        assert_eq!(told(vec![b"H*4A\n", b"\nH*", b"5A", b"", b"1"]), (vec![4, 0, 4], 1));
        // as long as what is kept of a line, a byte less and a byte more
        assert_eq!(told(vec![&[b'1'; 64], b"", b"1"]), (vec![64], 1));
        assert_eq!(told(vec![&[b'1'; 63], b"\n", b"", b"1"]), (vec![63], 1));
        assert_eq!(told(vec![&[b'1'; 65], b"\n2\n", b"", b"1"]), (vec![64, 1], 1));
        assert_eq!(told(vec![&[b'1'; 5000], b"", b"1"]), (vec![64], 1));
    }
}
