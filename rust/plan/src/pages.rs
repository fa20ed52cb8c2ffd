//! What the commands say: a page of lines for a table, for a step, for a trial, for who can be rung and for what a call did.

use crate::change::{Change, Clearing};
use crate::check::last_old_contact;
use crate::risks::Risk;
use crate::rung::{Contact, Fewest, Rung};
use crate::view::{Held, View};
use crate::words::{
    self, count, for_cabin, listed, named, place, row, steps, strength, NEVER_ENTERED, NEVER_TAKEN,
};
use telephone::{sole_quotas, Ending, Exit, Trial, CABINS, PLACES};

/// Steps of which one line says what holds them; a page says it of all.
const HELD_IN_A_LINE: usize = 4;

/// Lines put one after the other.
fn text(lines: &[String]) -> String {
    lines.iter().map(|line| format!("{line}\n")).collect()
}

/// Steps in use and free ones.
fn counts(view: &View) -> String {
    format!("{} in use, {} free", count(view.steps.len(), "step"), view.free())
}

/// The capacity and the counts.
pub fn numbers(view: &View) -> String {
    format!("capacity {}: {}", view.capacity, counts(view))
}

/// A row for each cabin that may have steps: its guarantee, its limit, the steps charged to it and those still owed to it; then the other cabins, and
/// the free steps that no guarantee reserves.
pub fn cabins(view: &View) -> String {
    let (some, none): (Vec<u16>, Vec<u16>) =
        (0..).take(CABINS).partition(|&cabin| view.quotas[usize::from(cabin)].limit > 0);
    let mut page = Vec::new();
    if !some.is_empty() {
        page.push("cabin  guarantee  limit  charged  still owed".to_string());
    }
    for cabin in some.into_iter().map(usize::from) {
        let quota = view.quotas[cabin];
        let (charged, owed) = (view.charged(cabin).count(), view.owed(cabin));
        let (guarantee, limit) = (quota.guarantee, quota.limit);
        page.push(format!("{cabin:>5}  {guarantee:>9}  {limit:>5}  {charged:>7}  {owed:>10}"));
    }
    if !none.is_empty() {
        page.push(format!("limit 0: {}", listed("cabin", &none)));
    }
    let reserved: usize = (0..CABINS).map(|cabin| view.owed(cabin)).sum();
    page.push(format!("free steps not reserved: {}", view.free().saturating_sub(reserved)));
    text(&page)
}

/// The whole table: its numbers, its cabins, each step in use with its four exits, and the free numbers. Steps that no trial enters and exits that none
/// takes are marked.
pub fn show(view: &View, rung: &Rung) -> String {
    let numbers = format!("capacity {}, last number given {}", view.capacity, view.last);
    let start = text(&[numbers, counts(view)]) + &cabins(view);
    let mut page = Vec::new();
    for (&number, step) in &view.steps {
        let cabin = if number == 0 { String::new() } else { format!(", cabin {}", step.cabin) };
        let links = bits_and_links(view, number);
        let never = rung.never_enters(number).then(|| format!("; {NEVER_ENTERED}"));
        let never = never.unwrap_or_default();
        page.push(format!("{}{cabin}{links}{never}", named(view, number)));
        for exit in Exit::ALL {
            let held = view.link(number, exit);
            let words = |held| link(view, &held) + &never_taken(view, rung, &held);
            let held = held.map_or("empty".to_string(), words);
            page.push(format!("    {} {exit:<10}  {held}", exit.number()));
        }
    }
    let free: Vec<u16> = (0..view.capacity).filter(|n| !view.steps.contains_key(n)).collect();
    if !free.is_empty() {
        page.push(format!("free: {}", words::numbers(&free)));
    }
    start + &text(&page)
}

/// The links to a step by their strength, and its own bit where it is 1.
fn bits_and_links(view: &View, number: u16) -> String {
    let mut words = String::new();
    if number != 0 {
        let all = view.links_to(number).count();
        let strong = view.holders(number).len();
        words = format!(": {} and {} lead to it", count(strong, "strong link"), weak(all - strong));
    }
    if view.steps.get(&number).is_some_and(|step| step.own != 0) {
        words += if words.is_empty() { ": own bit 1" } else { "; own bit 1" };
    }
    words
}

/// A link by its strength and its target, as `weak link to step 2 (contact 7)`.
fn link(view: &View, held: &Held) -> String {
    format!("{} link to {}", strength(held), named(view, held.link.target))
}

/// A mark behind a link in an exit that no trial takes.
fn never_taken(view: &View, rung: &Rung, held: &Held) -> String {
    rung.never_taken(view, held).map_or(String::new(), |_| format!(" ({NEVER_TAKEN})"))
}

fn weak(number: usize) -> String {
    match number {
        0 => "no weak one".to_string(),
        1 => "1 weak one".to_string(),
        _ => format!("{number} weak ones"),
    }
}

/// Why a step in use stays: a strong chain from step 0, and every other link to the step; then with which line results it is entered, or what keeps every
/// trial from it.
pub fn why(view: &View, step: u16, rung: &Rung, fewest: &Fewest) -> String {
    let mut page = Vec::new();
    let chain = view.strong_chain(0, step).unwrap_or_default();
    if step == 0 {
        page.push(format!("{} is always in use", named(view, 0)));
    } else {
        page.push(format!("{} is held by this strong chain:", named(view, step)));
    }
    for held in &chain {
        page.push(format!("    {}{}", leading(view, held), never_taken(view, rung, held)));
    }
    let others: Vec<Held> = view.links_to(step).filter(|held| chain.last() != Some(held)).collect();
    if step != 0 {
        page.push(format!("{} to it{}", count(others.len(), "other link"), colon(&others)));
    }
    for held in &others {
        let taken = never_taken(view, rung, held);
        page.push(format!("    {}, {}{taken}", leading(view, held), strength(held)));
    }
    // the first exit of the chain that no trial takes: trials come as far as its step
    let untaken = chain.iter().find_map(|held| Some((held, rung.never_taken(view, held)?)));
    match (fewest.get(&step), untaken) {
        (Some(results), _) => page.push(format!("held, and {}", way(view, step, results))),
        (None, Some((held, reason))) => {
            let never = format!("held, and never {}, {WHATEVER}", verb(view, step));
            page.push(format!("{never}: {} is {NEVER_TAKEN} ({reason})", place(held)));
        }
        // step 0
        (None, None) => {}
    }
    text(&page)
}

const WHATEVER: &str = "whatever the line results";

/// What a trial does with a step.
fn verb(view: &View, step: u16) -> &'static str {
    match view.contact(step) {
        Some(_) => "rung",
        None => "entered",
    }
}

/// With which line results a step is entered, as `rung after no reply, engaged (21)`.
fn way(view: &View, step: u16, results: &[Exit]) -> String {
    let runs: Vec<String> = results.chunk_by(|one, next| one == next).map(run).collect();
    let digits: String = results.iter().map(|exit| exit.number().to_string()).collect();
    match (view.contact(step), results) {
        (Some(_), []) => "rung first of all".to_string(),
        (None, []) => "entered before anybody is rung".to_string(),
        _ => format!("{} after {} ({digits})", verb(view, step), runs.join(", ")),
    }
}

/// A line result, and how often it comes, as `no reply 3 times`.
fn run(results: &[Exit]) -> String {
    match results {
        [exit] => exit.to_string(),
        _ => format!("{} {} times", results[0], results.len()),
    }
}

/// Who can be rung, with the fewest line results, and who never is, with the exits that hold each and are never taken: everybody, or the steps of a phone
/// book number.
pub fn rung(view: &View, rung: &Rung, fewest: &Fewest, entry: Option<u16>) -> String {
    let asked =
        |step: &u16| view.contact(*step).is_some_and(|of| entry.is_none_or(|entry| of == entry));
    let mut ways: Vec<(&u16, &Vec<Exit>)> = fewest.iter().filter(|(step, _)| asked(step)).collect();
    ways.sort_by_key(|(_, results)| results.len());
    let line = |(step, results): (&u16, &Vec<Exit>)| {
        format!("    {}: {}", named(view, *step), way(view, *step, results))
    };
    let ways: Vec<String> = ways.into_iter().map(line).collect();
    let never = view.steps.keys().filter(|step| asked(step) && rung.never_enters(**step));
    let never: Vec<String> = never.map(|&step| untaken(view, rung, step)).collect();
    if let Some(entry) = entry {
        return text(&[vec![can_be_rung(view, rung, entry)], ways, never].concat());
    }
    let numbers = format!(
        "steps in use besides the alarm: {}; entered by some trial: {}; contacts among these: {}",
        view.steps.len().saturating_sub(1),
        rung.entered().len(),
        rung.contacts().len()
    );
    let ways = section("rung, with the fewest line results", ways);
    let never = section(&format!("never rung, {WHATEVER}"), never);
    text(&[vec![numbers], ways, never].concat())
}

/// Lines below what they are about, or `nobody` behind it.
fn section(about: &str, lines: Vec<String>) -> Vec<String> {
    let nobody = if lines.is_empty() { " nobody" } else { "" };
    [vec![format!("{about}:{nobody}")], lines].concat()
}

/// A line that says what holds a step which no trial enters, and why each of these exits is never taken.
fn untaken(view: &View, rung: &Rung, step: u16) -> String {
    let reason = |held: &Held| rung.never_taken(view, held).unwrap_or_default();
    let exit = |held: &Held| format!("{} ({NEVER_TAKEN}: {})", place(held), reason(held));
    let holders: Vec<String> = view.holders(step).iter().map(exit).collect();
    format!("    {} is held by {}", named(view, step), row(&holders))
}

/// Whether a phone book number can be rung.
fn can_be_rung(view: &View, rung: &Rung, entry: u16) -> String {
    let contact = words::contact(entry);
    if rung.rings(entry) {
        format!("{contact} can be rung")
    } else if view.steps.keys().any(|&step| view.contact(step) == Some(entry)) {
        format!("{contact} is never rung, {WHATEVER}")
    } else {
        format!("no step has {contact}")
    }
}

/// That the primary is never rung, in a line; nothing where it can be.
pub fn silent_primary(view: &View, rung: &Rung) -> String {
    match rung.rings(0) {
        true => String::new(),
        false => text(&[can_be_rung(view, rung, 0)]),
    }
}

/// A line for each exit whose clearing would silence somebody or free a step, and one for all others.
pub fn risks(risks: &[Risk]) -> String {
    let (none, some): (Vec<&Risk>, Vec<&Risk>) = risks.iter().partition(|risk| risk.is_harmless());
    let line = |risk: &&Risk| {
        let freed = match &risk.freed[..] {
            [] => "no step".to_string(),
            freed => steps(freed),
        };
        format!("{}: silences {}; frees {freed}", exit(&risk.link), contacts(&risk.silent))
    };
    let others = format!("nobody silenced, no step freed: {}", count(none.len(), "exit"));
    text(&some.iter().map(line).chain([others]).collect::<Vec<_>>())
}

/// Contacts by their phone book numbers, ascending, as `the primary and contacts 1 to 9`.
fn contacts(entries: &[u16]) -> String {
    let others = |entries: &[u16]| listed("contact", entries);
    match entries {
        [] => "nobody".to_string(),
        [0] => "the primary".to_string(),
        [0, rest @ ..] => format!("the primary and {}", others(rest)),
        _ => others(entries),
    }
}

fn colon<T>(list: &[T]) -> &'static str {
    if list.is_empty() {
        ""
    } else {
        ":"
    }
}

/// A link with both its ends, as `step 1 (contact 4), exit 2 (no reply), leads to step 2 (contact 7)`.
fn leading(view: &View, held: &Held) -> String {
    let (step, target) = (named(view, held.step), named(view, held.link.target));
    format!("{step}, exit {} ({}), leads to {target}", held.exit.number(), held.exit)
}

/// What a clearing does, line by line: the steps that become doubtful, which of them stay and what holds each then, and which go.
pub fn cleared(before: &View, after: &View, clearing: &Clearing) -> String {
    let mut page = vec![clearing_of(before, &clearing.link)];
    let doubtful = clearing.doubtful();
    if doubtful.is_empty() {
        let held = held_by(after, clearing.link.link.target, " is held");
        page.push(format!("no step becomes doubtful: {held}"));
        return text(&page);
    }
    page.push(format!("doubtful: {}", steps(&doubtful)));
    page.push(format!("of these stay: {}", some_steps(clearing.stayed.len())));
    page.extend(held_steps(after, &clearing.stayed));
    page.push(format!("of these go: {}", some_steps(clearing.freed.len())));
    page.extend(named_steps(before, &clearing.freed));
    text(&page)
}

/// What a clearing would do: how many steps would be doubtful, and which of them would go; in one line where none would.
pub fn preview(view: &View, clearing: &Clearing) -> String {
    const NOT_CHANGED: &str = "the image is not changed";
    let start = clearing_of(view, &clearing.link);
    let doubtful = format!("{} would be doubtful", count(clearing.doubtful().len(), "step"));
    if clearing.freed.is_empty() {
        return format!("{start}; {doubtful}, none would go; {NOT_CHANGED}\n");
    }
    let mut page = vec![start, doubtful];
    page.push(format!("of these would go: {}", some_steps(clearing.freed.len())));
    page.extend(named_steps(view, &clearing.freed));
    page.push(NOT_CHANGED.to_string());
    text(&page)
}

/// The steps that ring first before and after a clearing, where they differ, and the contacts that fall silent by it, each in a line.
pub fn ringing(view: &View, first: [Option<u16>; 2], silenced: Option<String>) -> String {
    let [before, after] =
        first.map(|step| step.map_or("nobody".to_string(), |step| named(view, step)));
    let first = (before != after).then(|| format!("first rung before: {before}; after: {after}"));
    text(&first.into_iter().chain(silenced).collect::<Vec<_>>())
}

/// The contacts that no trial rings after a clearing, and whether their steps are still held; nothing where there are none.
pub fn silenced(words: &str, clearing: &Clearing, silent: &[Contact]) -> Option<String> {
    let (gone, held): (Vec<Contact>, Vec<Contact>) =
        silent.iter().partition(|(_, step)| clearing.freed.contains(step));
    let group = |(contacts, state): (&[Contact], &str)| {
        let all = if contacts.len() > 1 { "all " } else { "" };
        (!contacts.is_empty()).then(|| format!("{} ({all}{state})", at_steps(contacts)))
    };
    let groups = [(&held[..], "still held"), (&gone, "freed")].into_iter().filter_map(group);
    let groups = groups.collect::<Vec<_>>().join("; ");
    (!silent.is_empty()).then(|| format!("{words}, {WHATEVER}: {groups}"))
}

/// Contacts with their steps, as `contact 0 (the primary) at step 3 and contacts 1 to 9 at steps 4 to 12`.
fn at_steps(contacts: &[Contact]) -> String {
    // the primary stands by itself
    let follows = |a: &Contact, b: &Contact| a.0 != 0 && (a.0 + 1, a.1 + 1) == *b;
    let one = |&(entry, step): &Contact| format!("{} at step {step}", words::contact(entry));
    let words = |run: &[Contact]| match run {
        [_, _, _, ..] => {
            let (entries, numbers): (Vec<u16>, Vec<u16>) = run.iter().copied().unzip();
            vec![format!("{} at {}", listed("contact", &entries), steps(&numbers))]
        }
        few => few.iter().map(one).collect(),
    };
    row(&contacts.chunk_by(follows).flat_map(words).collect::<Vec<_>>())
}

/// The exit that is cleared and what it holds, as `clearing exit 2 of step 1 (no reply): a weak link to step 2 (contact 7)`.
fn clearing_of(before: &View, held: &Held) -> String {
    format!("clearing {}: a {}", exit(held), link(before, held))
}

/// What taking back a clearing does, line by line, given the table after it: the link that is back, the steps that are back in use, those that are held
/// as they were before the clearing, and the contacts that some trial rings again.
pub fn taken_back(after: &View, clearing: &Clearing, again: &[Contact]) -> String {
    let held = &clearing.link;
    let mut page = vec![format!("{} is filled again: a {}", exit(held), link(after, held))];
    let changed =
        [("steps back in use", &clearing.freed), ("steps held as before", &clearing.stayed)];
    if clearing.doubtful().is_empty() {
        page.push("no other step changes".to_string());
    } else {
        for (words, numbers) in changed {
            page.push(format!("{words}: {}", some(numbers.len())));
            page.extend(held_steps(after, numbers));
        }
    }
    page.extend((!again.is_empty()).then(|| format!("rung again: {}", at_steps(again))));
    text(&page)
}

/// An exit with its name, as `exit 2 of step 1 (no reply)`.
fn exit(held: &Held) -> String {
    format!("{} ({})", place(held), held.exit)
}

/// A line for each step, which says what holds it.
fn held_steps<'a>(view: &'a View, numbers: &'a [u16]) -> impl Iterator<Item = String> + 'a {
    let line =
        |&step: &u16| format!("    {} is held by {}", named(view, step), holders(view, step));
    numbers.iter().map(line)
}

/// A line for each step.
fn named_steps<'a>(view: &'a View, numbers: &'a [u16]) -> impl Iterator<Item = String> + 'a {
    numbers.iter().map(|&step| format!("    {}", named(view, step)))
}

/// So many steps, or `none`.
fn some_steps(number: usize) -> String {
    match number {
        0 => "none".to_string(),
        _ => count(number, "step"),
    }
}

/// A number, or `none`.
fn some(number: usize) -> String {
    match number {
        0 => "none".to_string(),
        _ => number.to_string(),
    }
}

/// The strong links to a step, as exits of steps.
fn holders(view: &View, step: u16) -> String {
    row(&view.holders(step).iter().map(place).collect::<Vec<_>>())
}

/// What holds a step, as `step 2 is held by exit 1 of step 0`.
fn held_by(view: &View, step: u16, is_held: &str) -> String {
    format!("step {step}{is_held} by {}", holders(view, step))
}

/// What an accepted call did, in one line, given the table after it.
pub fn answered(after: &View, change: &Change) -> String {
    match change {
        Change::Added(held) => {
            let target = held.link.target;
            format!("added {} at {}{}", named(after, target), place(held), for_cabin(after, target))
        }
        Change::Linked(held) => {
            let target = named(after, held.link.target);
            format!("{} now leads to {target}, by a {} link", place(held), strength(held))
        }
        Change::Cleared(clearing) => cleared_line(after, clearing),
        Change::Nothing => counts(after),
    }
}

/// A clearing in one line.
fn cleared_line(after: &View, clearing: &Clearing) -> String {
    let doubtful = count(clearing.doubtful().len(), "step");
    let freed = match &clearing.freed[..] {
        [] => "none freed".to_string(),
        freed => format!("{} freed ({})", freed.len(), steps(freed)),
    };
    let start = format!("cleared {}: {doubtful} doubtful, {freed}", place(&clearing.link));
    if clearing.doubtful().is_empty() {
        return format!("{start}; {}", held_by(after, clearing.link.link.target, " is still held"));
    }
    let (first, more) = clearing.stayed.split_at(clearing.stayed.len().min(HELD_IN_A_LINE));
    // `is held` is said of the first
    let is = [" is held"].into_iter().chain(std::iter::repeat(""));
    let held = first.iter().zip(is).map(|(&step, is)| held_by(after, step, is));
    let more = (!more.is_empty()).then(|| format!("{} more stay", more.len()));
    let held: Vec<String> = held.chain(more).collect();
    [vec![start], held].concat().join("; ")
}

/// A trial: each step entered, with the line result of a contact; how it ended; and who was rung, in which order.
pub fn trial(view: &View, results: &[u8], trace: &[u8], trial: Trial) -> String {
    let mut page = Vec::new();
    let mut left = results.iter().map(|&result| Exit::try_from(u16::from(result)));
    let mut rung = Vec::new();
    let mut taken = Exit::Answered;
    for (at, &step) in trace.iter().enumerate() {
        let step = u16::from(step);
        let last = at + 1 == trace.len() && trial.ending != Ending::Open;
        let mut words = named(view, step);
        taken = Exit::Answered;
        if let Some(entry) = view.contact(step) {
            rung.push(entry.to_string());
            if let (false, Some(Ok(result))) = (last, left.next()) {
                words += &format!(": {result}");
                taken = result;
            }
        }
        page.push(format!("{:>5}  {words}", at + 1));
    }
    let end = named(view, trial.last);
    let moves = count(trial.moves.into(), "move");
    page.push(match trial.ending {
        Ending::Open => {
            format!("open after {moves}: exit {} ({taken}) of {end} is empty", taken.number())
        }
        Ending::Spent => format!("spent after {moves}: {end} rings, and no line result is left"),
        Ending::Stopped if rings_nobody(view, trace) => {
            format!("stopped after {moves}: from {end} the plan goes round and rings nobody")
        }
        Ending::Stopped => format!("stopped after {moves}, the limit, at {end}"),
        _ => format!("ended after {moves} at {end}"),
    });
    match &rung[..] {
        [] => page.push("nobody is rung".to_string()),
        rung => page.push(format!("contacts rung, in this order: {}", rung.join(", "))),
    }
    text(&page)
}

/// Whether a trial went on for as many moves as there can be steps and entered no contact: then it goes round in the same steps for ever.
fn rings_nobody(view: &View, trace: &[u8]) -> bool {
    let contact = |&step: &u8| view.contact(u16::from(step)).is_some();
    trace.len() >= PLACES && !trace[trace.len() - PLACES..].iter().any(contact)
}

/// What a squeeze did: the numbers that changed.
pub fn squeezed(before: &View, after: &View) -> String {
    let mut page = vec![numbers(after)];
    for (&old, &new) in before.steps.keys().zip(after.steps.keys()) {
        if old != new {
            page.push(format!("step {old} is now {}", named(after, new)));
        }
    }
    text(&page)
}

/// What an image of edition 1 cannot say of a table: the first thing about its cabins, and its larger contacts.
pub fn needs_edition_2(view: &View) -> String {
    let causes: Vec<String> =
        [other_cabins(view), larger_contacts(view)].into_iter().flatten().collect();
    match causes.is_empty() {
        true => "nothing was found that edition 1 cannot say".to_string(),
        false => causes.join("; "),
    }
}

/// The first step of another cabin than 0, else the first guarantee or limit that is not the one which an image of edition 1 is loaded with.
fn other_cabins(view: &View) -> Option<String> {
    if let Some((&number, step)) = view.steps.iter().find(|(_, step)| step.cabin != 0) {
        return Some(format!("{} is charged to cabin {}", named(view, number), step.cabin));
    }
    for (cabin, (given, old)) in view.quotas.iter().zip(sole_quotas(view.capacity)).enumerate() {
        let pairs =
            [("guarantee", given.guarantee, old.guarantee), ("limit", given.limit, old.limit)];
        if let Some((what, given, old)) = pairs.into_iter().find(|(_, given, old)| given != old) {
            let words = format!("the {what} of cabin {cabin} is {given}");
            return Some(format!("{words}, and in edition 1 it is {old}"));
        }
    }
    None
}

/// The first step with a larger contact than an old telephone takes, and how many more there are.
fn larger_contacts(view: &View) -> Option<String> {
    let last = last_old_contact();
    let larger = |&step: &u16| view.contact(step).is_some_and(|entry| entry > last);
    let mut steps = view.steps.keys().copied().filter(larger);
    let first = named(view, steps.next()?);
    let more = match steps.count() {
        0 => String::new(),
        more => format!(" and {}", count(more, "more step")),
    };
    Some(format!("{first}{more}: an old telephone takes contacts up to {last}"))
}

/// A key line as it can be shown: its first bytes, within marks where one of them could not be seen.
pub fn line(bytes: &[u8]) -> String {
    const SHOWN: usize = 24;
    let start = &bytes[..bytes.len().min(SHOWN)];
    let more = if bytes.len() > SHOWN { ".." } else { "" };
    match !start.is_empty() && start.iter().all(u8::is_ascii_graphic) {
        true => start.escape_ascii().to_string() + more,
        false => format!("'{}'{more}", start.escape_ascii()),
    }
}
