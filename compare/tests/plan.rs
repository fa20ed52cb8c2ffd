//! What the tool `plan` reads off tables, held against the second program: which steps a clearing makes doubtful, keeps and frees; the strong chains;
//! what a key line did; how two tables differ; and the rule that a refused image breaks.

use compare::{has_larger_contact, lend, two_steps, NUMBERS};
use plan::change::{checked, Change};
use plan::check::first_fault;
use plan::diff::{diff, Verdict};
use plan::view::View;
use reference::calls::{add, clear, fresh_for_cabin_0, Command};
use reference::generate::{old_image, Generator, Random};
use reference::image::{encode, in_edition_1, load, records};
use reference::keys::{decode, key_line};
use reference::plan::plan_of;
use reference::sound::sound;
use reference::squeeze::squeeze;
use reference::table::{mark, members, place, Set, Table};
use std::collections::{BTreeMap, BTreeSet};

fn view(table: &Table) -> View {
    View::of(&telephone::Table::from_raw(lend(table)).unwrap())
}

fn set(steps: &[u16]) -> Set {
    steps.iter().fold(0, |set, &step| set | 1 << step)
}

/// Every clearing of made-up tables, with strengths that no history gives.
#[test]
fn clearings() {
    let (mut stayed, mut freed, mut neither) = (0, 0, 0);
    for seed in 9000..9060 {
        let table = Random(seed).sound_table();
        let before = view(&table);
        for held in before.links() {
            let (step, exit) = (held.step, held.exit.number());
            let mut emptied = table.clone();
            emptied.targets[place(step.into(), exit.into())] = 0;
            let doubtful = emptied.in_use() & !mark(1, &emptied.strong_links());
            let mut after = table.clone();
            let answer = clear(&mut after, step, exit);
            assert_eq!(answer.refusal, 0);
            let counts = (answer.first, answer.second);
            let Ok(Change::Cleared(clearing)) = checked(&before, &view(&after), counts) else {
                panic!("no clearing was seen: {step}, {exit}");
            };
            assert!(checked(&before, &view(&after), (counts.0, counts.1 + 1)).is_err());
            assert_eq!(clearing.link, held);
            assert_eq!(set(&clearing.doubtful()), doubtful);
            assert_eq!(set(&clearing.freed), table.in_use() & !after.in_use());
            assert_eq!(set(&clearing.stayed), doubtful & after.in_use());
            for &step in &clearing.stayed {
                assert!(!view(&after).holders(step).is_empty(), "nothing holds step {step}");
            }
            stayed += usize::from(!clearing.stayed.is_empty());
            freed += usize::from(!clearing.freed.is_empty());
            neither += usize::from(doubtful == 0);
        }
    }
    assert!(stayed > 300 && freed > 300 && neither > 1000, "{stayed} {freed} {neither}");
}

/// What two tables have in common, by the second program: whether they are one plan, and whether links have the same strengths.
fn verdict(a: &Table, b: &Table) -> Verdict {
    let strong = |table: &Table, place: usize| {
        let target = usize::from(table.targets[place]);
        target != 0 && table.bits[place] == table.own[target]
    };
    if a == b {
        Verdict::Same
    } else if plan_of(a) != plan_of(b) {
        Verdict::OtherPlans
    } else if (0..a.targets.len()).any(|place| strong(a, place) != strong(b, place)) {
        Verdict::OtherStrengths
    } else {
        Verdict::OtherBits
    }
}

/// A sound table beside others: itself, with the bits of a step and of all links to it turned round, with another list or another cabin, after a
/// clearing, and squeezed.
#[test]
fn differences() {
    let mut seen = BTreeMap::new();
    for seed in 9600..9800 {
        let mut random = Random(seed);
        let table = random.sound_table();
        let steps: Vec<usize> = members(table.in_use()).collect();
        let mut turned = table.clone();
        let step = random.pick(&steps);
        turned.own[step] = 1 - turned.own[step];
        for place in 0..turned.targets.len() {
            if step != 0 && usize::from(turned.targets[place]) == step {
                turned.bits[place] = 1 - turned.bits[place];
            }
        }
        turned.counts = turned.counted();
        let quotas = random.fitting_list(table.capacity, &table.charges());
        let mut charged = table.clone();
        charged.cabins[step] = random.below(8) as u16;
        let mut squeezed = table.clone();
        assert_eq!(squeeze(&mut squeezed, table.capacity, table.quotas).refusal, 0);
        let mut others = vec![table.clone(), turned, Random(seed + 1).sound_table(), squeezed];
        others.push(Table { quotas, ..table.clone() });
        others.extend(sound(&charged).then_some(charged));
        for held in view(&table).links().take(20) {
            let mut after = table.clone();
            assert_eq!(clear(&mut after, held.step, held.exit.number()).refusal, 0);
            // the exit filled again, weakly or strongly: often one plan with other strengths
            let place = place(held.step.into(), held.exit.number().into());
            let target = usize::from(table.targets[place]);
            for bit in [0, 1] {
                let mut again = after.clone();
                (again.targets[place], again.bits[place]) = (target as u16, bit);
                again.counts = again.counted();
                others.extend((after.used[target] == 1 && sound(&again)).then_some(again));
            }
            others.push(after);
        }
        for other in &others {
            let (found, lines) = diff(&view(&table), &view(other));
            assert_eq!(found, verdict(&table, other), "{lines:?}");
            assert_eq!(found == Verdict::Same, lines.is_empty());
            *seen.entry(found).or_insert(0) += 1;
        }
    }
    assert!(seen.len() == 4 && seen.values().all(|&times| times > 100), "{seen:?}");
}

/// A strong chain for every step in use, of links that are strong, and as short as the marks say.
#[test]
fn strong_chains() {
    for seed in 9100..9300 {
        let table = Random(seed).sound_table();
        let (view, strong) = (view(&table), table.strong_links());
        for step in members(table.in_use()) {
            let chain = view.strong_chain(0, step as u16).expect("no strong chain");
            let mut at = 0;
            for held in &chain {
                assert!(held.strong && usize::from(held.step) == at, "a broken chain");
                at = held.link.target.into();
                assert!(strong[usize::from(held.step)] >> at & 1 == 1, "a weak link in a chain");
            }
            assert_eq!(at, step);
            let rounds = (0..).scan(1, |set: &mut Set, _| {
                let now = *set;
                *set |= members(now).fold(0, |next, step| next | strong[step]);
                Some(now)
            });
            let least = rounds.take_while(|set| set >> step & 1 == 0).count();
            assert_eq!(chain.len(), least, "a chain that is not the shortest");
        }
    }
}

/// What the tool says a key line did is what the second program decodes it to.
#[test]
fn key_lines() {
    let mut seen = [0; 4];
    for seed in 9400..9410 {
        let mut table = fresh_for_cabin_0(128);
        let mut generator = Generator::new(seed);
        for _ in 0..400 {
            let line = generator.key_line(&plan_of(&table));
            let before = view(&table);
            let answer = key_line(&mut table, &line);
            if answer.refusal != 0 {
                continue;
            }
            let change = checked(&before, &view(&table), (answer.first, answer.second)).unwrap();
            let did = match (decode(&line).unwrap(), change) {
                (Command::Add { holder, exit, .. }, Change::Added(held)) => {
                    assert_eq!((held.step, held.exit.number()), (holder, exit));
                    0
                }
                (Command::Link { second, second_exit, .. }, Change::Linked(held)) => {
                    assert_eq!((held.step, held.exit.number()), (second, second_exit));
                    assert!(!held.strong, "a strong copy");
                    1
                }
                (Command::Clear { step, exit }, Change::Cleared(clearing)) => {
                    let link = clearing.link;
                    assert_eq!((link.step, link.exit.number()), (step, exit));
                    2
                }
                (Command::Count, Change::Nothing) => 3,
                (command, change) => panic!("{command:?} is seen as {change:?}"),
            };
            seen[did] += 1;
        }
    }
    assert!(seen.iter().all(|&times| times > 100), "{seen:?}");
}

/// A rule is broken exactly where the second program refuses the image. Gives the rule.
fn rule(bytes: &[u8]) -> Option<u8> {
    let fault = first_fault(bytes);
    let refused = load(bytes).1.refusal != 0;
    assert_eq!(fault.is_some(), refused, "{fault:?} in {bytes:?}");
    if let Some(fault) = &fault {
        assert!(fault.byte <= bytes.len(), "{fault:?}");
    }
    fault.map(|fault| fault.rule)
}

/// Images with one or a few bytes damaged, cut, extended, with records twice or left out or of the other edition. Gives the rules that they break.
fn rules_broken(whole: &[u8], random: &mut Random) -> BTreeSet<u8> {
    let mut rules = BTreeSet::new();
    assert_eq!(rule(whole), None);
    for at in 0..whole.len().min(210) {
        for value in [0, 1, 2, 3, 4, 16, 31, 32, 128, 255, whole[at] ^ 1, whole[at] ^ 128] {
            let mut bytes = whole.to_vec();
            bytes[at] = value;
            rules.extend(rule(&bytes));
        }
    }
    for _ in 0..200 {
        let mut bytes = whole.to_vec();
        for _ in 0..1 + random.below(3) {
            let at = random.below(bytes.len());
            bytes[at] = random.pick(&[0, 1, 2, 5, 20, 64, 255]);
        }
        rules.extend(rule(&bytes));
        let mut bytes = whole.to_vec();
        random.damage_image(&mut bytes);
        rules.extend(rule(&bytes));
    }
    let (header, record) = (records(whole)[0].len(), records(whole)[1].len());
    for length in [0, 1, header - 1, header, header + 1, header + record - 1, whole.len() - 1] {
        rules.extend(rule(&whole[..length]));
    }
    rules.extend(rule(&[whole, b"\0"].concat()));
    for (count, part) in [(1, &whole[header..header + record]), (u16::MAX, &[])] {
        let mut bytes = [whole, part].concat();
        let steps = u16::from_le_bytes([bytes[8], bytes[9]]).wrapping_add(count);
        bytes[8..10].copy_from_slice(&steps.to_le_bytes());
        if part.is_empty() {
            bytes.drain(header..header + record);
        }
        rules.extend(rule(&bytes));
    }
    rules
}

/// All rules come up; in edition 1, all but those about cabins. A contact above 99 breaks rule 7 in edition 1, and none in edition 2.
#[test]
fn broken_rules() {
    let (mut old_rules, mut rules) = (BTreeSet::new(), BTreeSet::new());
    let mut larger = 0;
    for seed in 9500..9510 {
        let mut random = Random(seed);
        let table = random.sound_table();
        let image = encode(&table);
        old_rules.extend(rules_broken(&old_image(&table), &mut random));
        rules.extend(rules_broken(&image, &mut random));
        let has_larger = has_larger_contact(&table);
        assert_eq!(rule(&in_edition_1(&image)), has_larger.then_some(7));
        larger += usize::from(has_larger);
    }
    assert_eq!((old_rules, rules), ((1..=10).collect(), (1..=14).collect()));
    assert!(larger > 5, "{larger}");
}

/// A kind or a content out of range breaks rule 7, in both editions.
#[test]
fn contents_out_of_range() {
    // contents that fit edition 1, by the kind, and edition 2
    let mut fitting = [[0; 5]; 2];
    for (kind, content) in (0..5).flat_map(|kind| NUMBERS.map(|content| (kind, content))) {
        let image = encode(&two_steps(kind, content));
        for (fitting, image) in fitting.iter_mut().zip([in_edition_1(&image), image]) {
            let rule = rule(&image);
            assert!(matches!(rule, None | Some(7)), "{kind} {content}: {rule:?}");
            fitting[usize::from(kind)] += usize::from(rule.is_none());
        }
    }
    let upto = |highest| NUMBERS.into_iter().filter(|&number| number <= highest).count();
    let [old, new] = [99, 999].map(|highest| [0, upto(highest), upto(15), upto(600) - 1, 0]);
    assert_eq!(fitting, [old, new]);
}

/// A change of an image: bytes put in, or its length.
#[derive(Clone, Default)]
struct Damage {
    bytes: Vec<(usize, u8)>,
    length: Option<usize>,
}

impl Damage {
    /// The change that a row of docs/IMAGE.md says: `byte N is HH`, once or more, or one of the two about its last byte.
    fn read(words: &str, length: usize) -> Damage {
        let words: Vec<&str> =
            words.split([' ', ',', ':']).filter(|word| !word.is_empty()).collect();
        let bytes = words.windows(4).filter_map(|four| match four {
            ["byte", at, "is", value] => {
                Some((at.parse().ok()?, u8::from_str_radix(value, 16).ok()?))
            }
            _ => None,
        });
        let length = match words[..] {
            ["the", "last", "byte", "is", "left", "out"] => Some(length - 1),
            ["a", "byte", "is", "added"] => Some(length + 1),
            _ => None,
        };
        Damage { bytes: bytes.collect(), length }
    }

    fn apply(&self, image: &mut Vec<u8>) {
        self.bytes.iter().for_each(|&(at, value)| image[at] = value);
        image.resize(self.length.unwrap_or(image.len()), 0);
    }

    fn touches(&self, other: &Damage) -> bool {
        let same = |&(at, _): &(usize, u8)| other.bytes.iter().any(|&(to, _)| to == at);
        self.bytes.iter().any(same) || (self.length.is_some() && other.length.is_some())
    }
}

/// The table of docs/IMAGE.md, "Not accepted": each change of the image "Two steps", with the rule that it breaks and the byte told. Of two changes at
/// once, the lower rule is told.
#[test]
fn rules_of_the_page() {
    let mut table = fresh_for_cabin_0(4);
    assert_eq!(add(&mut table, 0, 0, 1, 0, 0).first, 1);
    let whole = encode(&table);
    let (_, page) = include_str!("../../docs/IMAGE.md").split_once("### Not accepted").unwrap();
    let rows = page.lines().filter_map(|line| {
        let cells: Vec<&str> = line.split('|').map(str::trim).collect();
        let [_, change, rule, byte, _] = cells[..] else { return None };
        Some((Damage::read(change, whole.len()), rule.parse().ok()?, byte.parse().ok()?))
    });
    let rows: Vec<(Damage, u8, usize)> = rows.collect();
    assert_eq!(rows.len(), 24);
    for (damage, number, byte) in &rows {
        let mut bytes = whole.clone();
        damage.apply(&mut bytes);
        assert!(bytes != whole, "a row that changes nothing");
        let fault = first_fault(&bytes).unwrap();
        assert_eq!((fault.rule, fault.byte), (*number, *byte), "{}", fault.words);
        for (other, second, _) in rows.iter().filter(|(other, ..)| !damage.touches(other)) {
            let mut both = whole.clone();
            damage.apply(&mut both);
            other.apply(&mut both);
            assert_eq!(rule(&both), Some(*number.min(second)));
        }
    }
}
