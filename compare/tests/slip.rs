//! Clearings with a slip and take-backs (W7) through the interface and on the second program, the plain plan held to both: slips of tables with any
//! strengths, damaged a byte at a time, cut, extended, put together wrongly and made up; old slips of histories; buffers of all lengths; tables that are
//! not sound; and the laws. Bytes beside the lent ones and the slip have to stay.

use compare::{as_said, both, ring, Refusals, NUMBERS};
use reference::calls::{add, clear, fresh_for_cabin_0, link, Command};
use reference::generate::{start, Generator, Random};
use reference::history::{Call, Outcome, Start, UNTOUCHED};
use reference::image::load;
use reference::laws::{self, slip_length};
use reference::slip::{between, listed, LARGEST_SLIP, SLIP_HEADER, SLIP_PAIR};
use reference::sound::{sound, CONTACT};
use reference::table::{members, Table, EXITS};

/// A clearing: the table before it, the exit, the table after it and the slip.
struct Cleared {
    before: Table,
    step: u16,
    exit: u16,
    after: Table,
    slip: Vec<u8>,
}

impl Cleared {
    /// Clears an exit by both programs.
    fn new(before: &Table, step: u16, exit: u16) -> Cleared {
        let mut after = before.clone();
        let outcome = both(&mut after, &Call::ClearWithSlip { step, exit, buffer: LARGEST_SLIP });
        assert_eq!(outcome.refusal, 0);
        let slip = outcome.lent[..slip_length(&outcome)].to_vec();
        Cleared { before: before.clone(), step, exit, after, slip }
    }

    /// The steps that it freed.
    fn freed(&self) -> usize {
        (self.before.size() - self.after.size()).into()
    }
}

/// Takes back a slip by both programs and by the plan, on a copy; gives the refusal.
fn refusal(table: &Table, slip: &[u8]) -> u16 {
    let outcome = as_said(table, &Call::TakeBack { slip: slip.to_vec() });
    assert!(outcome.lent.is_empty());
    outcome.refusal
}

/// The exits of a table that hold a link.
fn filled(table: &Table) -> Vec<(u16, u16)> {
    let steps = members(table.in_use());
    let exits = steps.flat_map(|step| (0..EXITS).map(move |exit| (step as u16, exit as u16)));
    exits.filter(|&(step, exit)| table.target(step, exit) != 0).collect()
}

/// One clearing of each table that has a link, such as free steps and take others back first.
fn clearings(seeds: std::ops::Range<u64>) -> impl Iterator<Item = Cleared> {
    seeds.filter_map(|seed| {
        let table = Random(seed).sound_table();
        let all = filled(&table);
        let many = all.iter().copied().find(|&(step, exit)| {
            let counts = clear(&mut table.clone(), step, exit);
            counts.second > 0 && counts.first > counts.second
        });
        let (step, exit) = many.or_else(|| all.get(seed as usize % all.len().max(1)).copied())?;
        Some(Cleared::new(&table, step, exit))
    })
}

/// Small ones: a step freed; one that turns its bit; a weak link alone; a chain of three freed but for one that a copy holds.
fn small_clearings() -> [Cleared; 4] {
    let mut one = fresh_for_cabin_0(4);
    assert_eq!(add(&mut one, 0, 0, 1, 7, 0).first, 1);
    let mut two = one.clone();
    assert_eq!(link(&mut two, 0, 0, 0, 2).refusal, 0);
    let mut chain = fresh_for_cabin_0(6);
    for step in 0..4 {
        assert_eq!(add(&mut chain, step, 1, 3, 600, 0).first, step + 1);
    }
    assert_eq!(link(&mut chain, 2, 1, 1, 0).refusal, 0);
    [(&one, 0, 0), (&two, 0, 0), (&two, 0, 2), (&chain, 1, 1)]
        .map(|(table, step, exit)| Cleared::new(table, step, exit))
}

/// How often each refusal of a take-back came up.
#[derive(Default, Debug)]
struct Seen(Refusals);

impl Seen {
    fn note(&mut self, refusal: u16) {
        self.0[usize::from(refusal)] += 1;
    }

    /// Accepted and refused take-backs came up as often as that, and no other refusal did.
    fn met(&self, accepted: usize, refused: usize) {
        println!("{self:?}");
        let Seen(found) = self;
        assert!(found[0] >= accepted && found[18] >= refused, "{self:?}");
        assert_eq!(found[0] + found[18], found.iter().sum());
    }
}

/// Every byte of a small slip takes every value.
#[test]
fn small_slips_damaged() {
    let mut seen = Seen::default();
    for cleared in small_clearings() {
        for at in 0..cleared.slip.len() {
            let mut damaged = cleared.slip.clone();
            for byte in 0..=255 {
                damaged[at] = byte;
                seen.note(refusal(&cleared.after, &damaged));
            }
        }
    }
    seen.met(400, 50_000);
}

/// Every byte of larger slips takes several wrong values.
#[test]
fn slips_damaged() {
    let mut seen = Seen::default();
    for mut cleared in clearings(700..720) {
        for at in 0..cleared.slip.len().min(1200) {
            let was = cleared.slip[at];
            for now in [was ^ 1, was ^ 16, was.wrapping_add(1), was.wrapping_sub(1), 128, 255] {
                cleared.slip[at] = now;
                seen.note(refusal(&cleared.after, &cleared.slip));
            }
            cleared.slip[at] = was;
        }
        assert_eq!(refusal(&cleared.after, &cleared.slip), 0);
    }
    seen.met(50, 5000);
}

/// Every field takes numbers of any size, the first three pair by pair.
#[test]
fn fields_damaged() {
    let mut seen = Seen::default();
    let put = |slip: &mut [u8], at: usize, number: u16| {
        slip[at..at + 2].copy_from_slice(&number.to_le_bytes());
    };
    for Cleared { after, slip, .. } in small_clearings().into_iter().chain(clearings(720..726)) {
        for number in NUMBERS {
            for at in (0..slip.len().min(500)).step_by(2) {
                let mut damaged = slip.clone();
                put(&mut damaged, at, number);
                seen.note(refusal(&after, &damaged));
            }
            for other in NUMBERS {
                for [first, second] in [[0, 2], [0, 4], [2, 4]] {
                    let mut damaged = slip.clone();
                    put(&mut damaged, first, number);
                    put(&mut damaged, second, other);
                    seen.note(refusal(&after, &damaged));
                }
            }
        }
    }
    seen.met(100, 5000);
}

/// Cut at every length, and with bytes behind: zeros, others, its own again, and so many that 16 bits leave nothing of them or of the whole.
#[test]
fn slips_cut_and_extended() {
    for Cleared { after, slip, .. } in small_clearings().into_iter().chain(clearings(730..740)) {
        for length in 0..slip.len() {
            assert_eq!(refusal(&after, &slip[..length]), 18);
        }
        let again = |more| slip.iter().copied().cycle().take(more).collect::<Vec<u8>>();
        let small = (1..100).chain([SLIP_PAIR, 2 * SLIP_PAIR, LARGEST_SLIP]);
        let large = [65_535, 65_536, 65_536 - slip.len(), 65_536 - SLIP_PAIR, 131_072, 1_000_000];
        for more in small.chain(large) {
            for behind in [vec![0; more], vec![UNTOUCHED; more], again(more)] {
                let mut long = [&slip[..], &behind].concat();
                assert_eq!(refusal(&after, &long), 18);
                // with the number of steps that the length says, in 16 bits
                let steps = (long.len() - SLIP_HEADER) / SLIP_PAIR;
                long[4..6].copy_from_slice(&(steps as u16).to_le_bytes());
                if more >= SLIP_PAIR {
                    assert_eq!(refusal(&after, &long), 18);
                }
            }
        }
        assert_eq!(refusal(&after, &slip), 0);
    }
}

/// Bytes of every length up to some that are no slip, on tables of all sorts.
#[test]
fn no_slips() {
    for table in [fresh_for_cabin_0(1), ring(&[CONTACT; 5]), Random(3).sound_table()] {
        for length in (0..300).chain([5637, 5638, 5639, 65_535, 65_536, 65_542, 65_586, 131_072]) {
            for byte in [0, 1, 22, 128, UNTOUCHED, 255] {
                assert_eq!(refusal(&table, &vec![byte; length]), 18);
            }
        }
    }
}

/// Pairs left out, twice, in another order, with old and new exchanged, and pairs of steps that are as they were, free or in use.
#[test]
fn slips_put_together_wrongly() {
    let mut random = Random(91);
    let mut seen = Seen::default();
    for Cleared { after, slip, .. } in small_clearings().into_iter().chain(clearings(740..780)) {
        let steps = listed(&slip);
        for _ in 0..40 {
            let mut wrong = slip.clone();
            random.damage_slip(&after, &mut wrong);
            seen.note(refusal(&after, &wrong));
        }
        for step in (0..128).filter(|step| !steps.contains(step)).step_by(5) {
            let same = reference::image::record(&after, step.into()).repeat(2);
            let behind = steps.iter().filter(|&&listed| listed < step).count();
            let mut wrong = slip.clone();
            let at = SLIP_HEADER + SLIP_PAIR * behind;
            wrong.splice(at..at, same);
            wrong[4] += 1;
            assert_eq!(refusal(&after, &wrong), 18);
        }
    }
    seen.met(20, 1000);
}

/// Slips that no clearing wrote, with links and steps of any strength and cabin. What is accepted retraces.
#[test]
fn made_up_slips() {
    let mut random = Random(92);
    let mut seen = Seen::default();
    for seed in 800..1000 {
        let table = Random(seed).sound_table();
        for _ in 0..20 {
            let slip = random.made_up_slip(&table);
            let mut given = table.clone();
            let outcome = both(&mut given, &Call::TakeBack { slip: slip.clone() });
            assert_eq!(refusal(&table, &slip), outcome.refusal);
            if outcome.refusal == 0 {
                laws::retraces(&both, &table, &given, &slip);
            }
            seen.note(outcome.refusal);
        }
    }
    seen.met(1000, 1000);
}

/// The same plan with other strengths: each bit of the steps in the slip turned, in the old record, in the new one, in both, and in the table too. One
/// table in many is sound, and then it is as if the clearing had been made there.
#[test]
fn other_strengths() {
    let mut seen = Seen::default();
    for Cleared { after, slip, .. } in small_clearings().into_iter().chain(clearings(1000..1040)) {
        for pair in (SLIP_HEADER..slip.len()).step_by(SLIP_PAIR).take(12) {
            for bit in 0..5 {
                let [old, new] = [pair + 10, pair + 32];
                let turned = |places: &[usize]| {
                    let mut slip = slip.clone();
                    places.iter().for_each(|&place| slip[place] ^= 1 << bit);
                    slip
                };
                let mut table = after.clone();
                let step = usize::from(slip[pair + 4]);
                match bit {
                    4 => table.own[step] ^= 1,
                    _ => table.bits[step * EXITS + bit] ^= 1,
                }
                table.counts = table.counted();
                for slip in [&slip, &turned(&[old]), &turned(&[new]), &turned(&[old, new])] {
                    seen.note(refusal(&after, slip));
                    if sound(&table) {
                        seen.note(refusal(&table, slip));
                    }
                }
            }
        }
    }
    seen.met(100, 1000);
}

/// Buffers of all sorts of lengths: empty, too short for the first fields, one byte short, exact, longer, and past 16 bits, where 16 bits would leave
/// nothing of the length, too little and just enough. The plain clearing gives the same counts and the same table.
#[test]
fn buffers() {
    let mut seen = Refusals::default();
    for cleared in small_clearings().into_iter().chain(clearings(1040..1080)) {
        let Cleared { before, step, exit, after, slip } = &cleared;
        let (step, exit) = (*step, *exit);
        let needed = slip.len();
        let mut plain = before.clone();
        let counts = both(&mut plain, &Call::Edit(Command::Clear { step, exit }));
        assert!(plain == *after && counts.numbers[1] == cleared.freed());
        let near = [0, 1, 5, 6, 49, 50, 93, needed - 1, needed, needed + 1, needed + 77];
        let far = [LARGEST_SLIP - 1, LARGEST_SLIP, LARGEST_SLIP + 1, 65_535, 65_536];
        let wrapped = [1, needed - 1, needed].map(|more| 65_536 + more);
        for buffer in near.into_iter().chain(far).chain(wrapped) {
            let outcome = as_said(before, &Call::ClearWithSlip { step, exit, buffer });
            seen[usize::from(outcome.refusal)] += 1;
            if buffer < needed {
                assert_eq!(outcome.refusal, 11);
            } else {
                assert_eq!((outcome.refusal, &outcome.numbers), (0, &counts.numbers));
                let (written, past) = outcome.lent.split_at(needed);
                assert!(written == slip && past.iter().all(|&byte| byte == UNTOUCHED));
            }
        }
    }
    assert!(seen[0] > 300 && seen[11] > 100, "{seen:?}");
}

/// Any step and exit, with any buffer: 3, 4 and 6 come before 11.
#[test]
fn any_exit() {
    compare::any_exit(&[0, 49, 50, LARGEST_SLIP], |step, exit, buffer| Call::ClearWithSlip {
        step,
        exit,
        buffer,
    });
}

/// Damaged tables, most of which are not sound: 1, whatever the exit, the buffer and the slip.
#[test]
fn unsound_tables() {
    let mut random = Random(93);
    let mut seen = Seen::default();
    let mut unsound = 0;
    for Cleared { before, step, exit, after, slip } in clearings(1100..1160) {
        for _ in 0..30 {
            let (mut first, mut second) = (before.clone(), after.clone());
            random.damage(&mut first);
            random.damage(&mut second);
            for buffer in [0, slip.len(), LARGEST_SLIP] {
                let outcome = as_said(&first, &Call::ClearWithSlip { step, exit, buffer });
                assert_eq!(outcome.refusal == 1, !sound(&first));
            }
            for bytes in [&slip[..], &[], &slip[1..]] {
                let refusal = refusal(&second, bytes);
                if sound(&second) {
                    seen.note(refusal);
                } else {
                    assert_eq!(refusal, 1);
                    unsound += 1;
                }
            }
        }
    }
    seen.met(50, 100);
    assert!(unsound > 1000, "{unsound}");
}

/// A table after a clearing with any last number given, capacity and list that it may have: the last number stays, and the steps come back where
/// capacity and list allow them.
#[test]
fn other_numbers_of_the_table() {
    let mut random = Random(94);
    let mut seen = Seen::default();
    for Cleared { before, after, slip, .. } in clearings(1200..1300) {
        let highest = members(after.in_use()).last().unwrap_or(0);
        for _ in 0..8 {
            let mut table = after.clone();
            let capacities = [after.capacity.into(), highest + 1, highest + 2, 128];
            table.capacity = random.pick(&capacities).min(128) as u16;
            table.last = random.below(table.capacity.into()) as u16;
            table.quotas = random.fitting_list(table.capacity, &after.charges());
            assert!(sound(&table));
            let Table { capacity, last, quotas, .. } = table;
            let expected = Table { capacity, last, quotas, ..before.clone() };
            let mut given = table.clone();
            let outcome = both(&mut given, &Call::TakeBack { slip: slip.clone() });
            assert_eq!(outcome.refusal == 0, sound(&expected));
            assert!(given == if sound(&expected) { expected } else { table });
            seen.note(outcome.refusal);
        }
    }
    seen.met(300, 50);
}

/// Histories, and after each call all of the last slips, on copies: right ones stay so until a step of theirs changes, or does not fit any more.
#[test]
fn old_slips_of_histories() {
    let mut seen = Seen::default();
    let mut later = 0;
    for seed in 0..54 {
        let mut table = match start(seed) {
            Start::Fresh { .. } => fresh_for_cabin_0(128),
            Start::Load { image } => load(&image).0,
        };
        let mut generator = Generator::new(seed);
        let mut slips: Vec<(usize, Vec<u8>)> = Vec::new();
        for number in 0..90 {
            let call = generator.call(&table);
            let Outcome { refusal: refused, lent, numbers } = as_said(&table, &call);
            both(&mut table, &call);
            if matches!(call, Call::ClearWithSlip { .. }) && refused == 0 {
                slips.push((number, lent[..50 + 44 * numbers[0]].to_vec()));
            }
            for (written, slip) in slips.iter().rev().take(5) {
                let refusal = refusal(&table, slip);
                seen.note(refusal);
                later += usize::from(refusal == 0 && *written < number);
            }
        }
    }
    seen.met(1000, 1000);
    assert!(later > 1000, "{later}");
}

/// The largest slip, both ways: all steps freed, and all taken back.
#[test]
fn the_largest_slip() {
    let mut chain = fresh_for_cabin_0(128);
    for step in 0..127 {
        assert_eq!(add(&mut chain, step, 3, 3, 600, 0).refusal, 0);
    }
    let mut held = chain.clone();
    assert_eq!(link(&mut held, 0, 3, 0, 0).refusal, 0);
    for (table, back) in [(chain, 127), (held, 0)] {
        let Cleared { before, mut after, slip, .. } = Cleared::new(&table, 0, 3);
        assert_eq!((slip.len(), &slip), (5638, &between(&before, &after, 0, 3)));
        for at in (0..slip.len()).step_by(97) {
            let mut damaged = slip.clone();
            damaged[at] ^= 1;
            refusal(&after, &damaged);
        }
        let outcome = both(&mut after, &Call::TakeBack { slip });
        assert_eq!((outcome.refusal, outcome.numbers), (0, vec![back, 0]));
        assert!(after == before);
    }
}

/// The laws, of which each call is made by both programs.
#[test]
fn slips_bring_back() {
    assert!(laws::slips_bring_back(&both, 1900..1940) > 20);
}

#[test]
fn take_backs_retrace() {
    let [accepted, later] = laws::take_backs_retrace(&both, 72..126);
    assert!(accepted > 300 && later > 100, "{accepted} {later}");
}
