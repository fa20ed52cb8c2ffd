//! Made-up calls, key lines, lists, images, conversions, slips, sound tables and unsound ones, the
//! same for the same seed. Most calls suit the table at hand; the rest have odd numbers, wrong keys,
//! short buffers, lists that are bad or do not fit, or slips that are old, damaged or of no
//! clearing. Serves the tests of "A history is a list" of document 01, of W6, W7, W8 and W9 of
//! document 02, and of who can be rung.

use std::array::from_fn;
use std::iter::successors;
use std::ops::Range;

use crate::cabins::{for_cabin_0, one_cabin};
use crate::calls::{add, clear, fresh_for_cabin_0, link, Command};
use crate::convert::{Conversion, Way};
use crate::history::{Call, Start};
use crate::image::{encode, in_edition_1, in_edition_2, record, records, HEADER, RECORD};
use crate::plan::{plan_of, Plan, PlanStep};
use crate::slip::{between, LARGEST_SLIP, SLIP_HEADER, SLIP_PAIR};
use crate::sound::{sound, CONTACT, HIGHEST_CONTACT, MESSAGE, OLD_HIGHEST_CONTACT, WAIT};
use crate::steps::STEPS_ROOM;
use crate::table::{members, place, Charges, Quotas, Table, CABINS, EXITS, PLACES};

/// Numbers at and beyond the ends of ranges, and numbers that would wrap to small ones.
const ODD: [u16; 23] = [
    0, 1, 2, 3, 4, 5, 7, 8, 15, 16, 99, 100, 127, 128, 255, 256, 257, 600, 601, 999, 1000, 32768,
    65535,
];

/// The highest contents of kinds 1 to 3.
const HIGHEST: [u16; 3] = [HIGHEST_CONTACT, 15, 600];
/// The lowest contact that no old telephone takes.
const LARGER_CONTACT: u16 = OLD_HIGHEST_CONTACT + 1;
/// The ends of the contacts that an old telephone takes, and of all contacts and these.
const OLD_CONTACTS: &[u16] = &[0, OLD_HIGHEST_CONTACT];
const CONTACTS: &[u16] = &[0, OLD_HIGHEST_CONTACT, LARGER_CONTACT, HIGHEST_CONTACT];

/// Phases of a history: fill, make rings, clear, mix. Each lists add, link, clear, clear with a
/// slip, take back, preview, who can be rung, squeeze, trial and other calls by a letter, as often
/// as it has them.
const PHASES: [&[u8]; 4] = [
    b"aaaaaaaaaaaalllckkbpprsstttoo",
    b"aalllllllllckkbpprsttoo",
    b"allccccccckkkbpprsttoo",
    b"aaalllcckkbbpprstttoooo",
];

/// What may come right after a clearing with a slip: taking back at once, or after an add at the
/// cleared exit or elsewhere, a link, a clearing, a preview, a squeeze, a trial, another call, or
/// several.
const SEQUELS: [&[u8]; 14] = [
    b"b", b"b", b"b", b"eb", b"ab", b"lb", b"cb", b"pb", b"sb", b"tb", b"ob", b"aaaab", b"aaaab",
    b"ocalb",
];

/// Splitmix64.
pub struct Random(pub u64);

impl Random {
    pub fn number(&mut self) -> u64 {
        self.0 = self.0.wrapping_add(0x9E37_79B9_7F4A_7C15);
        let mut z = self.0;
        z = (z ^ z >> 30).wrapping_mul(0xBF58_476D_1CE4_E5B9);
        z = (z ^ z >> 27).wrapping_mul(0x94D0_49BB_1331_11EB);
        z ^ z >> 31
    }

    /// A number below a bound above 0.
    pub fn below(&mut self, bound: usize) -> usize {
        (self.number() % bound as u64) as usize
    }

    /// True once in so many times.
    pub fn once_in(&mut self, times: usize) -> bool {
        self.below(times) == 0
    }

    pub fn pick<T: Copy>(&mut self, list: &[T]) -> T {
        list[self.below(list.len())]
    }

    pub fn shuffle<T>(&mut self, list: &mut [T]) {
        for i in (1..list.len()).rev() {
            list.swap(i, self.below(i + 1));
        }
    }

    /// A kind from 1 to 3, half of them contacts, and a content that fits, often at an end of its
    /// range. Contacts have these ends.
    fn kind_and_content(&mut self, contacts: &[u16]) -> (u16, u16) {
        let kind = self.pick(&[CONTACT, CONTACT, MESSAGE, WAIT]);
        let ends = [contacts, &[0, HIGHEST[1]], &[1, HIGHEST[2]]][usize::from(kind) - 1];
        let (low, high) = (ends[0], ends[ends.len() - 1]);
        let between = low + self.below(usize::from(high - low) + 1) as u16;
        let end = self.pick(ends);
        (kind, self.pick(&[end, between, end]))
    }

    /// Puts an odd number in place of this one, once in so many times.
    fn maybe_odd(&mut self, number: &mut u16, times: usize) {
        if self.once_in(times) {
            *number = self.pick(&ODD);
        }
    }

    /// A length that is just enough, one too few, or more.
    fn around(&mut self, length: usize) -> usize {
        let more = length + self.below(40);
        self.pick(&[length, length.saturating_sub(1), more])
    }

    /// A length of a buffer for a list of steps: enough, about that, or less.
    fn steps_room(&mut self) -> usize {
        let (near, less) = (self.around(STEPS_ROOM), self.below(STEPS_ROOM));
        self.pick(&[STEPS_ROOM, near, near, less])
    }

    /// A capacity to squeeze a plan into: what it needs, one less, a few more, what it has, the
    /// largest, one out of range, or an odd number. The largest comes up most, so that plans grow.
    fn capacity(&mut self, plan: &Plan) -> u16 {
        let needed = plan.steps.len() as u16;
        let more = needed + self.below(8) as u16;
        let odd = self.pick(&ODD);
        self.pick(&[needed, needed - 1, more, plan.capacity, 128, 128, 0, 129, odd])
    }

    /// So many places, handed out to one cabin, two, or all.
    fn shares(&mut self, places: usize) -> Charges {
        let mut cabins: [usize; CABINS] = from_fn(|cabin| cabin);
        self.shuffle(&mut cabins);
        let some = self.pick(&[1, 2, CABINS]);
        let mut shares = [0; CABINS];
        for _ in 0..places {
            shares[self.pick(&cabins[..some])] += 1;
        }
        shares
    }

    /// A list that a table of this capacity, which is in range, can have with these charges, or
    /// with none where they are too many. Of the places over, none are guaranteed, some or all; a
    /// limit is what is needed, a little more, or the largest number.
    pub fn fitting_list(&mut self, capacity: u16, charges: &Charges) -> Quotas {
        let places = usize::from(capacity) - 1;
        let charged = usize::from(charges.iter().sum::<u16>());
        if charged > places {
            return self.fitting_list(capacity, &[0; CABINS]);
        }
        let some = self.below(places - charged + 1);
        let reserved = self.pick(&[0, some, places - charged]);
        let unmet = self.shares(reserved);
        let mut quotas = [0; 2 * CABINS];
        for (cabin, pair) in quotas.chunks_mut(2).enumerate() {
            let needed = charges[cabin] + unmet[cabin];
            let met = self.below(usize::from(needed) + 1) as u16;
            let more = needed + self.below(8) as u16;
            pair[0] = if unmet[cabin] > 0 { needed } else { met };
            pair[1] = self.pick(&[needed, more, u16::MAX]);
        }
        quotas
    }

    /// A list that no table of this capacity can have: a guarantee is above its limit, or there is
    /// one place too few, or the guarantees add up to 0 in 16 bits.
    fn bad_list(&mut self, capacity: u16) -> Quotas {
        let mut quotas = self.fitting_list(capacity, &[0; CABINS]);
        let shares = self.shares(capacity.into());
        let times = self.pick(&[2, 4, CABINS]);
        match self.below(3) {
            0 => {
                let cabin = self.below(CABINS);
                let limit = self.below(capacity.into()) as u16;
                (quotas[2 * cabin], quotas[2 * cabin + 1]) = (limit + 1, limit);
            }
            1 => quotas = from_fn(|i| shares[i / 2]),
            _ => {
                quotas = [0; 2 * CABINS];
                quotas[..2 * times].fill((65536 / times) as u16);
                quotas.rotate_right(2 * self.below(CABINS));
            }
        }
        quotas
    }

    /// A list for a table of this capacity, brought into range, with these charges. Most can be had
    /// with them; of the rest, some are bad, and some good ones do not fit the charges.
    pub fn list(&mut self, capacity: u16, charges: &Charges) -> Quotas {
        let capacity = capacity.clamp(1, PLACES as u16);
        match self.below(12) {
            0 => one_cabin(capacity),
            1 => {
                let share = (capacity - 1) / CABINS as u16;
                let limit = self.pick(&[share, capacity - 1, u16::MAX]);
                from_fn(|i| [share, limit][i % 2])
            }
            2 => self.fitting_list(capacity, &[0; CABINS]),
            3 | 4 => self.bad_list(capacity),
            _ => self.fitting_list(capacity, charges),
        }
    }

    /// A cabin to add for: mostly one that may have a step more.
    fn cabin(&mut self, plan: &Plan) -> u16 {
        let any = self.once_in(4);
        let cabins: Vec<u16> =
            (0..CABINS as u16).filter(|&cabin| any || plan.room(cabin).is_ok()).collect();
        if cabins.is_empty() {
            0
        } else {
            self.pick(&cabins)
        }
    }

    /// Drops all but the answered exits, where there are any, every second time: messages and waits
    /// take no other in a trial.
    fn prefer_answered<T: Copy>(&mut self, exits: &mut Vec<T>, number: impl Fn(T) -> usize) {
        if self.once_in(2) && exits.iter().any(|&exit| number(exit) == 0) {
            exits.retain(|&exit| number(exit) == 0);
        }
    }

    /// A step and an exit: mostly one of the plan that is filled, or empty, as asked for.
    pub fn place(&mut self, plan: &Plan, filled: bool) -> (u16, u16) {
        let any = self.once_in(16);
        let mut places = Vec::new();
        for (&number, step) in &plan.steps {
            for (exit, &target) in (0..).zip(&step.targets) {
                if any || (target != 0) == filled {
                    places.push((number, exit));
                }
            }
        }
        if !filled {
            self.prefer_answered(&mut places, |(_, exit)| usize::from(exit));
        }
        let (mut step, mut exit) = match places[..] {
            [] => (0, 0),
            _ => self.pick(&places),
        };
        self.maybe_odd(&mut step, 24);
        self.maybe_odd(&mut exit, 24);
        (step, exit)
    }

    /// An exit of the plan such that another one of its step leads to the same target, if there is
    /// one.
    fn copied_place(&mut self, plan: &Plan) -> Option<(u16, u16)> {
        let mut places = Vec::new();
        for (&number, PlanStep { targets, .. }) in &plan.steps {
            for (exit, target) in (0..).zip(targets) {
                let links = targets.iter().filter(|&other| other == target).count();
                if *target != 0 && links > 1 {
                    places.push((number, exit));
                }
            }
        }
        (!places.is_empty()).then(|| self.pick(&places))
    }

    /// So many line results, and the moves that a trial makes with them if nothing stops it, or
    /// some number if it goes on for ever. A contact mostly gets the number of an exit that is
    /// filled.
    pub fn results(&mut self, plan: &Plan, length: usize) -> (Vec<u8>, usize) {
        let (mut results, mut moves, mut step) = (Vec::new(), 0, 0);
        let most = self.below(600);
        while moves <= most {
            let PlanStep { kind, targets, .. } = plan.steps[&step];
            let mut exit = 0;
            if kind == CONTACT {
                if results.len() == length {
                    break;
                }
                let filled = (0..4).filter(|&exit| targets[exit] != 0).collect::<Vec<_>>();
                let any = filled.is_empty() || self.once_in(12);
                exit = if any { self.below(4) } else { self.pick(&filled) };
                results.push(exit as u8);
            }
            step = targets[exit];
            if step == 0 {
                break;
            }
            moves += 1;
        }
        let left = length - results.len();
        results.extend((0..left).map(|_| self.below(4) as u8));
        (results, moves)
    }

    /// A trial. Its limit is mostly about the moves that the plan allows, and the trace is about as
    /// long as the limit; now and then a result is too high, used up or not.
    pub fn trial(&mut self, plan: &Plan) -> Call {
        let (few, more) = (self.below(3), self.below(12));
        let length = self.pick(&[few, more]);
        let (mut results, moves) = self.results(plan, length);
        let (small, less) = (self.below(6), self.below(moves + 1));
        let limits = [moves, moves, moves.saturating_sub(1), moves + 1, moves + 300, less, small];
        let mut limit = self.pick(&limits) as u16;
        self.maybe_odd(&mut limit, 24);
        if length > 0 && self.once_in(8) {
            results[self.below(length)] = 4 + self.pick(&[0, 1, 4, 251]);
        }
        let exact = self.once_in(2);
        let trace = if exact { limit.into() } else { self.around(limit.into()) };
        Call::Trial { limit, results, trace }
    }

    /// A sound table with any strengths, cabins and list. Its steps come in some order; each has a
    /// strong link from an earlier one, and a link to itself or an earlier one is weak.
    pub fn sound_table(&mut self) -> Table {
        let mut table = Table::zero();
        table.capacity = 1 + self.below(PLACES) as u16;
        table.last = self.below(table.capacity.into()) as u16;
        let mut order: Vec<usize> = (1..table.capacity.into()).collect();
        self.shuffle(&mut order);
        order.truncate(self.below(order.len() + 1));
        order.insert(0, 0);
        for (i, &step) in order.iter().enumerate() {
            table.used[step] = 1;
            table.own[step] = self.below(2) as u16;
            if step != 0 {
                (table.kinds[step], table.contents[step]) = self.kind_and_content(CONTACTS);
                let mut empty: Vec<usize> = order[..i]
                    .iter()
                    .flat_map(|&holder| place(holder, 0)..place(holder, EXITS))
                    .filter(|&exit| table.targets[exit] == 0)
                    .collect();
                self.prefer_answered(&mut empty, |place| place % EXITS);
                let exit = self.pick(&empty);
                (table.targets[exit], table.bits[exit]) = (step as u16, table.own[step]);
            }
        }
        for (i, &step) in order.iter().enumerate() {
            for exit in place(step, 0)..place(step, EXITS) {
                let j = self.below(order.len());
                if table.targets[exit] == 0 && j != 0 && self.once_in(2) {
                    let own = table.own[order[j]];
                    let strong = j > i && self.once_in(2);
                    table.targets[exit] = order[j] as u16;
                    table.bits[exit] = if strong { own } else { 1 - own };
                }
            }
        }
        table.counts = table.counted();
        self.charge(&mut table);
        table
    }

    /// The plan of a sound table with any strengths that it may have. The steps are reached in some
    /// order, each by a strong link, and a link to itself or an earlier one is weak.
    pub fn other_strengths(&mut self, table: &Table) -> Table {
        let mut other = table.clone();
        let mut order = vec![0];
        let mut reaching = Vec::new();
        let mut open: Vec<usize> = (0..EXITS).collect();
        while !open.is_empty() {
            let exit = open.swap_remove(self.below(open.len()));
            let target = usize::from(table.targets[exit]);
            if target != 0 && !order.contains(&target) {
                order.push(target);
                reaching.push(exit);
                open.extend(place(target, 0)..place(target, EXITS));
            }
        }
        for &step in &order {
            other.own[step] = self.below(2) as u16;
        }
        for (i, &step) in order.iter().enumerate() {
            for exit in place(step, 0)..place(step, EXITS) {
                let target = usize::from(table.targets[exit]);
                if target != 0 {
                    let strong = order[i + 1..].contains(&target) && self.once_in(2);
                    let strong = strong || reaching.contains(&exit);
                    other.bits[exit] = other.own[target] ^ u16::from(!strong);
                }
            }
        }
        other.counts = other.counted();
        other
    }

    /// Charges the steps of a table to cabins, and gives it a list that they keep to; every fourth
    /// time those of an image of edition 1.
    fn charge(&mut self, table: &mut Table) {
        if self.once_in(4) {
            *table = for_cabin_0(table);
            return;
        }
        let mut steps: Vec<usize> = members(table.in_use() & !1).collect();
        self.shuffle(&mut steps);
        let charges = self.shares(steps.len());
        let mut steps = steps.into_iter();
        for (cabin, charge) in (0..).zip(charges) {
            steps.by_ref().take(charge.into()).for_each(|step| table.cabins[step] = cabin);
        }
        table.quotas = self.fitting_list(table.capacity, &charges);
    }

    /// W5's list for edition 1 with one other number, such as a table of this capacity, above 1,
    /// can have: cabin 0 is guaranteed less, or a limit is higher.
    fn near_list(&mut self, capacity: u16) -> Quotas {
        let mut quotas = one_cabin(capacity);
        let cabin = self.below(CABINS);
        if cabin == 0 && self.once_in(2) {
            quotas[0] = self.below(quotas[0].into()) as u16;
        } else {
            let limit = &mut quotas[2 * cabin + 1];
            *limit = self.pick(&[*limit + 1, *limit + 2, u16::MAX]);
        }
        quotas
    }

    /// An accepted image with its step records in any order.
    pub fn reordered(&mut self, image: &[u8]) -> Vec<u8> {
        let mut records = records(image);
        self.shuffle(&mut records[1..]);
        records.concat()
    }

    /// Puts this contact in place of one of a table's, if it has one.
    pub fn put_contact(&mut self, table: &mut Table, contact: u16) {
        let steps: Vec<usize> =
            members(table.in_use()).filter(|&step| table.kinds[step] == CONTACT).collect();
        if !steps.is_empty() {
            table.contents[self.pick(&steps)] = contact;
        }
    }

    /// A conversion of a sound table's image, with its step records in any order, into a buffer
    /// about as long as it has to be. Most images are of the edition that the way begins with, and
    /// about half of the tables are such as an old telephone takes. The other images are of the
    /// other edition, damaged, or have more than edition 1 can say: another list, one other number
    /// of it, a larger contact, or any list and contacts.
    pub fn conversion(&mut self) -> Conversion {
        let way = self.pick(&[Way::Up, Way::Down]);
        let any = self.sound_table();
        let mut table = for_old_telephone(&any);
        match self.below(10) {
            0 => table = any,
            1 | 2 => table = Table { contents: table.contents, ..any },
            3 if table.capacity > 1 => table.quotas = self.near_list(table.capacity),
            4 => {
                let between = LARGER_CONTACT + self.below(900) as u16;
                let contact = self.pick(&[LARGER_CONTACT, between, HIGHEST_CONTACT]);
                self.put_contact(&mut table, contact);
            }
            _ => {}
        }
        let new = self.reordered(&encode(&table));
        let old = in_edition_1(&new);
        let (given, written) = if way == Way::Up { (old, new) } else { (new, old) };
        let needed = written.len();
        let mut image = if self.once_in(6) { written } else { given };
        if self.once_in(6) {
            self.damage_image(&mut image);
        }
        Conversion { way, image, buffer: self.around(needed) }
    }

    /// Puts an image of edition 2 together from both editions: this record, where 0 is the header,
    /// is of one of them, and all others are of the other.
    pub fn mixed_image(&mut self, image: &[u8], record: usize) -> Vec<u8> {
        let old = in_edition_1(image);
        let mut editions = [records(image), records(&old)];
        self.shuffle(&mut editions);
        let [mut mixed, other] = editions;
        mixed[record] = other[record];
        mixed.concat()
    }

    /// Damages an accepted image of either edition: mixes it with the other, cuts it, adds bytes,
    /// or puts a number into a field: mostly a length, a kind, the capacity, one of the list, a
    /// step's number, its content or the last one of its record, which is the cabin in edition 2.
    pub fn damage_image(&mut self, image: &mut Vec<u8>) {
        let all = records(image);
        let (count, header, record) = (all.len(), all[0].len(), all[1].len());
        let step = header + record * self.below(count - 1);
        let field = self.below(header / 2) * 2;
        let any = self.below(image.len() / 2) * 2;
        match self.below(8) {
            0 => {
                let new = in_edition_2(image).expect("an accepted image");
                let record = self.below(count);
                *image = self.mixed_image(&new, record);
            }
            1 => image.truncate(any + self.below(2)),
            2 => image.extend_from_within(self.pick(&[0, header, any])..),
            _ => {
                let last = step + record - 2;
                let places = [0, 2, 4, field, step, step + 2, step + 4, step + 8, last, any];
                let at = self.pick(&places);
                let values = [&ODD[..], &[10, 20, 22, 42]].concat();
                image[at..at + 2].copy_from_slice(&self.pick(&values).to_le_bytes());
            }
        }
    }

    /// A slip that no clearing wrote, whose new records are the present ones: in the old ones, an
    /// empty exit has a link of any strength, to a step in use or to one more, of any cabin. Some
    /// can be taken back, and others would give a table that is not sound.
    pub fn made_up_slip(&mut self, table: &Table) -> Vec<u8> {
        let plan = plan_of(table);
        let (step, exit) = self.place(&plan, false);
        let mut before = table.clone();
        let place = place(usize::from(step) % PLACES, usize::from(exit) % EXITS);
        let bound = self.pick(&[table.capacity.into(), PLACES]);
        let free = (1..bound).filter(|&step| table.used[step] == 0);
        let used = members(table.in_use() & !1);
        let targets: Vec<usize> = if self.once_in(2) { free.collect() } else { used.collect() };
        if let [_, ..] = targets[..] {
            let target = self.pick(&targets);
            if table.used[target] == 0 {
                before.used[target] = 1;
                (before.kinds[target], before.contents[target]) = self.kind_and_content(CONTACTS);
                before.own[target] = self.below(2) as u16;
                let any = self.below(CABINS) as u16;
                let fitting = self.cabin(&plan);
                before.cabins[target] = self.pick(&[any, fitting]);
            }
            let strong = before.own[target];
            (before.targets[place], before.bits[place]) =
                (target as u16, self.pick(&[strong, strong, 1 - strong]));
        }
        between(&before, table, step, exit)
    }

    /// Damages a slip that may fit a table: cuts it, adds bytes, puts a number into a field, changes
    /// a bit, exchanges the records of a step, has another order, leaves a step out, or lists one
    /// that did not change.
    pub fn damage_slip(&mut self, table: &Table, slip: &mut Vec<u8>) {
        slip.resize(slip.len().max(SLIP_HEADER), 0);
        let pairs = (slip.len() - SLIP_HEADER) / SLIP_PAIR;
        let any = self.below(slip.len());
        let pair = SLIP_HEADER + SLIP_PAIR * self.below(pairs.max(1));
        match self.below(10) {
            0 => slip.truncate(any),
            1 | 2 => slip.extend(vec![0; self.pick(&[1, 2, RECORD, SLIP_PAIR, 65_536])]),
            3 if any + 1 < slip.len() => {
                let at = self.pick(&[0, 2, 4, any & !1, pair + 8]).min(slip.len() - 2);
                slip[at..at + 2].copy_from_slice(&self.pick(&ODD).to_le_bytes());
            }
            4 | 5 => slip[any] ^= 1 << self.below(8),
            6 if pairs > 0 => slip[pair..pair + SLIP_PAIR].rotate_left(RECORD),
            7 if pairs > 1 => slip[SLIP_HEADER..].rotate_left(SLIP_PAIR),
            8 if pairs > 1 => {
                slip.drain(pair..pair + SLIP_PAIR);
                slip[4] = slip[4].wrapping_sub(1);
            }
            _ => {
                let steps: Vec<usize> = members(table.in_use()).collect();
                let same = record(table, self.pick(&steps));
                let behind = slip[SLIP_HEADER..]
                    .chunks_exact(SLIP_PAIR)
                    .position(|pair| pair[4] > same[4])
                    .unwrap_or(pairs);
                let at = SLIP_HEADER + SLIP_PAIR * behind;
                slip.splice(at..at, [&same[..], &same].concat());
                slip[4] = slip[4].wrapping_add(1);
            }
        }
    }

    /// Puts an odd number into one field of a table, or one that is next to its own. Places low in
    /// the arrays come up more often.
    pub fn damage(&mut self, table: &mut Table) {
        let odd = self.pick(&ODD);
        let change = self.pick(&[None, None, Some(1), Some(u16::MAX)]);
        let near = self.pick(&[1, 4, PLACES]);
        let step = self.below(near);
        let exit = place(step, self.below(EXITS));
        let quota = self.below(2 * CABINS);
        let field = match self.below(11) {
            0 => &mut table.capacity,
            1 => &mut table.last,
            2 => &mut table.used[step],
            3 => &mut table.kinds[step],
            4 => &mut table.contents[step],
            5 => &mut table.own[step],
            6 => &mut table.targets[exit],
            7 => &mut table.bits[exit],
            8 => &mut table.cabins[step],
            9 => &mut table.quotas[quota],
            _ => &mut table.counts[exit / 2],
        };
        *field = change.map_or(odd, |change| field.wrapping_add(change));
    }
}

/// A table as an old telephone takes it: all its steps are charged to cabin 0, with W5's list for
/// edition 1, and its contacts keep their last two digits.
pub fn for_old_telephone(table: &Table) -> Table {
    let mut table = for_cabin_0(table);
    for (content, &kind) in table.contents.iter_mut().zip(&table.kinds) {
        if kind == CONTACT {
            *content %= LARGER_CONTACT;
        }
    }
    table
}

/// The image of edition 1 of a table, as an old telephone takes it.
pub fn old_image(table: &Table) -> Vec<u8> {
    in_edition_1(&encode(&for_old_telephone(table)))
}

/// The first call of the history with this seed: a fresh table, sometimes refused; an image of
/// edition 2 or of edition 1; one of edition 1 with a contact that no old telephone takes; a damaged
/// one; or one with the header of one edition and the steps of the other.
pub fn start(seed: u64) -> Start {
    let mut random = Random(!seed);
    let mut table = random.sound_table();
    let image = match seed % 18 {
        0..=2 => {
            let capacity = random.pick(&[128, 128, 1, 2, 3, 4, 5, 8, 12, 24, 60, 0, 129]);
            let quotas = if random.once_in(4) {
                random.bad_list(capacity.clamp(1, PLACES as u16))
            } else {
                random.list(capacity, &[0; CABINS])
            };
            return Start::Fresh { capacity, quotas };
        }
        3..=6 => encode(&table),
        7..=10 => old_image(&table),
        11..=13 => {
            while !table.kinds.contains(&CONTACT) {
                table = random.sound_table();
            }
            table = for_old_telephone(&table);
            random.put_contact(&mut table, LARGER_CONTACT);
            in_edition_1(&encode(&table))
        }
        14 => {
            let mut image = if random.once_in(2) { old_image(&table) } else { encode(&table) };
            random.damage_image(&mut image);
            image
        }
        _ => random.mixed_image(&encode(&for_old_telephone(&table)), 0),
    };
    Start::Load { image }
}

/// Makes up the calls of one history.
pub struct Generator {
    random: Random,
    phase: &'static [u8],
    left: usize,
    /// Letters of the calls that come first.
    soon: &'static [u8],
    /// The exits cleared with a slip, and the slips, the last one last.
    slips: Vec<(u16, u16, Vec<u8>)>,
    /// The exit previewed last.
    previewed: (u16, u16),
    /// The ends of the contacts added: in every second history, of those an old telephone takes.
    contacts: &'static [u16],
}

impl Generator {
    pub fn new(seed: u64) -> Generator {
        let (phase, left) = (PHASES[0], 2 * PLACES);
        let (soon, slips, previewed) = (b"", Vec::new(), (0, 0));
        let contacts = if seed % 2 == 1 { CONTACTS } else { OLD_CONTACTS };
        Generator { random: Random(seed), phase, left, soon, slips, previewed, contacts }
    }

    /// The next call, to be made on this table.
    pub fn call(&mut self, table: &Table) -> Call {
        let plan = &plan_of(table);
        if self.left == 0 {
            self.phase = self.random.pick(&PHASES);
            self.left = 1 + self.random.below(2 * usize::from(plan.capacity) + 8);
        }
        self.left -= 1;
        let letter = match self.soon.split_off_first() {
            Some(&letter) => letter,
            // where step 0 has all the room, a squeeze gives more, which most calls need
            None if plan.capacity == 1 && self.random.once_in(5) => b's',
            None => self.random.pick(self.phase),
        };
        match letter {
            b'k' => self.clear_with_slip(table, plan),
            b'b' => Call::TakeBack { slip: self.slip(table) },
            b'e' => self.add_at_cleared(plan),
            b'p' => self.preview_clear(plan),
            b'r' => Call::Rung { buffer: self.random.steps_room() },
            b'd' => {
                let (step, exit) = self.previewed;
                Call::Edit(Command::Clear { step, exit })
            }
            b's' => {
                let capacity = self.random.capacity(plan);
                let quotas = self.random.list(capacity, &plan.charges());
                Call::Squeeze { capacity, quotas }
            }
            b't' => self.random.trial(plan),
            b'o' => self.other(plan),
            letter => Call::Edit(self.command(plan, letter)),
        }
    }

    /// A clearing with a slip, into a buffer about as long as it has to be. The slip is kept, even
    /// where the buffer is too short for it.
    fn clear_with_slip(&mut self, table: &Table, plan: &Plan) -> Call {
        let (step, exit) = self.random.place(plan, true);
        let mut cleared = table.clone();
        let mut needed = SLIP_HEADER + SLIP_PAIR;
        if clear(&mut cleared, step, exit).refusal == 0 {
            let slip = between(table, &cleared, step, exit);
            needed = slip.len();
            self.slips.push((step, exit, slip));
            self.soon = if self.random.once_in(3) { b"" } else { self.random.pick(&SEQUELS) };
        }
        let (more, less) = (needed + self.random.below(40), self.random.below(needed));
        let rooms = [needed, needed, more, more, more, LARGEST_SLIP, needed - 1, less];
        let buffer = self.random.pick(&rooms);
        Call::ClearWithSlip { step, exit, buffer }
    }

    /// A preview, into a buffer about as long as it has to be. Every sixth time the same clearing
    /// is made next, where nothing else is to come first.
    fn preview_clear(&mut self, plan: &Plan) -> Call {
        let random = &mut self.random;
        let filled = !random.once_in(8);
        let copied = if random.once_in(3) { random.copied_place(plan) } else { None };
        let (step, exit) = copied.unwrap_or_else(|| random.place(plan, filled));
        let buffer = random.steps_room();
        if self.soon.is_empty() && random.once_in(6) {
            self.soon = b"d";
        }
        self.previewed = (step, exit);
        Call::PreviewClear { step, exit, buffer }
    }

    /// The last slip, an earlier one, one that no clearing wrote, or one of these damaged.
    fn slip(&mut self, table: &Table) -> Vec<u8> {
        let random = &mut self.random;
        let mut slip = match self.slips[..] {
            [.., (_, _, ref slip)] if random.once_in(2) => slip.clone(),
            [_, .., _] if random.once_in(3) => {
                let recent = self.slips.len().min(8);
                self.slips[self.slips.len() - 1 - random.below(recent)].2.clone()
            }
            _ => random.made_up_slip(table),
        };
        if random.once_in(4) {
            random.damage_slip(table, &mut slip);
        }
        slip
    }

    /// An add at the exit that was cleared last with a slip.
    fn add_at_cleared(&mut self, plan: &Plan) -> Call {
        let mut command = self.command(plan, b'a');
        if let (Command::Add { holder, exit, .. }, Some(last)) = (&mut command, self.slips.last()) {
            (*holder, *exit) = (last.0, last.1);
        }
        Call::Edit(command)
    }

    /// The next key line, to be made on this plan. It has no byte 10.
    pub fn key_line(&mut self, plan: &Plan) -> Vec<u8> {
        let letter = self.random.pick(b"aalccn");
        let mut line = key_text(self.command(plan, letter));
        if self.random.once_in(4) {
            let at = self.random.below(line.len());
            let byte = self.random.pick(b"HA*0123456789h -\r\0\xFF");
            match self.random.below(6) {
                0 => line.truncate(at),
                1 => line.insert(at, byte),
                2 => line.push(byte),
                3 => line = line.repeat(1 + at),
                _ => line[at] = byte,
            }
        }
        line
    }

    /// A read, a writing, a length, a count or a key line.
    fn other(&mut self, plan: &Plan) -> Call {
        let random = &mut self.random;
        match random.below(9) {
            0 => {
                let mut step = random.place(plan, true).0;
                random.maybe_odd(&mut step, 6);
                Call::Read { step }
            }
            1 => Call::Write { buffer: random.around(HEADER + RECORD * plan.steps.len()) },
            2 => Call::ImageLength,
            3 => Call::Edit(Command::Count),
            _ => Call::KeyLine(self.key_line(plan)),
        }
    }

    /// An add, a link, a clearing or a count, by its letter.
    fn command(&mut self, plan: &Plan, letter: u8) -> Command {
        let random = &mut self.random;
        match letter {
            b'a' => {
                // now and then, much is wrong at once
                let wrong = random.once_in(16);
                let times = if wrong { 2 } else { 24 };
                let (mut holder, exit) = random.place(plan, wrong);
                let (mut kind, mut content) = random.kind_and_content(self.contacts);
                if random.once_in(40) {
                    content = HIGHEST[usize::from(kind) - 1] + 1;
                }
                let mut cabin = random.cabin(plan);
                for number in [&mut holder, &mut kind, &mut content, &mut cabin] {
                    random.maybe_odd(number, times);
                }
                Command::Add { holder, exit, kind, content, cabin }
            }
            b'l' => {
                let (source, source_exit) = random.place(plan, true);
                let (second, second_exit) = random.place(plan, false);
                Command::Link { source, source_exit, second, second_exit }
            }
            b'c' => {
                let (step, exit) = random.place(plan, true);
                Command::Clear { step, exit }
            }
            _ => Command::Count,
        }
    }
}

/// The plan of a caretaker, steps 1 to 12: a message; contact 42, the flat; behind its no reply the
/// primary and nine more contacts, each behind the no reply of the one before, and the primary again
/// behind that of the last. The engaged exit of step 0 leads to the primary too.
pub fn caretakers_plan() -> Table {
    let mut table = fresh_for_cabin_0(16);
    assert_eq!(add(&mut table, 0, 0, MESSAGE, 0, 0).first, 1);
    assert_eq!(add(&mut table, 1, 0, CONTACT, 42, 0).first, 2);
    for holder in 2..12 {
        assert_eq!(add(&mut table, holder, 2, CONTACT, holder - 2, 0).first, holder + 1);
    }
    for (second, exit) in [(12, 2), (0, 1)] {
        assert_eq!(link(&mut table, 2, 2, second, exit).refusal, 0);
    }
    table
}

/// Every sound table of capacity 3 with steps 1 and 2 in use and own bits of either value, in which
/// exits 0 and 3 alone hold links, of either strength.
pub fn small_tables() -> impl Iterator<Item = Table> {
    const PLACES_TO_FILL: [usize; 6] = [0, 3, 4, 7, 8, 11];
    // at each place nothing, or a target with a bit
    const LINKS: [(u16, u16); 5] = [(0, 0), (1, 0), (1, 1), (2, 0), (2, 1)];
    let ways = LINKS.len().pow(PLACES_TO_FILL.len() as u32);
    (0..4 * ways).filter_map(move |number| {
        let mut table = fresh_for_cabin_0(3);
        table.used[1..3].fill(1);
        table.kinds[1..3].fill(CONTACT);
        (table.own[1], table.own[2]) = ((number / ways % 2) as u16, (number / ways / 2) as u16);
        for (place, link) in PLACES_TO_FILL.into_iter().zip(digits(number, LINKS.len())) {
            (table.targets[place], table.bits[place]) = LINKS[link];
        }
        table.counts = table.counted();
        sound(&table).then_some(table)
    })
}

/// Every plan of so many steps beside step 0, of these kinds, in which these exits alone hold links,
/// as a table that has no place more.
pub fn small_plans<'a>(
    steps: usize,
    exits: &'a [usize],
    kinds: &'a [u16],
) -> impl Iterator<Item = Table> + 'a {
    let links = (steps + 1).pow(((steps + 1) * exits.len()) as u32);
    let of_kinds = kinds.len().pow(steps as u32);
    (0..links).filter_map(move |links| linked(steps, exits, links)).flat_map(move |table| {
        (0..of_kinds).map(move |number| {
            let mut table = table.clone();
            for (step, kind) in (1..=steps).zip(digits(number, kinds.len())) {
                (table.kinds[step], table.contents[step]) = (kinds[kind], 1);
            }
            table
        })
    })
}

/// A table of so many steps without kinds, whose targets at these exits are the digits of a number,
/// if its steps are numbered as they are first met when the exits are gone through from step 0 on.
/// The links that first meet a step are strong, and all others weak.
fn linked(steps: usize, exits: &[usize], links: usize) -> Option<Table> {
    let mut table = fresh_for_cabin_0(steps as u16 + 1);
    table.last = steps as u16;
    table.used[1..=steps].fill(1);
    let places = (0..=steps).flat_map(|step| exits.iter().map(move |&exit| (step, exit)));
    let mut met = 0;
    for ((step, exit), target) in places.zip(digits(links, steps + 1)) {
        if step > met || target > met + 1 {
            return None;
        }
        table.targets[place(step, exit)] = target as u16;
        table.bits[place(step, exit)] = u16::from(target != 0 && target <= met);
        met = met.max(target);
    }
    table.counts = table.counted();
    (met == steps).then_some(table)
}

/// The digits of a number to this base, the lowest first, and zeros behind them.
pub fn digits(number: usize, base: usize) -> impl Iterator<Item = usize> {
    successors(Some(number), move |rest| Some(rest / base)).map(move |rest| rest % base)
}

/// Tables with any strengths, of which every sixth is damaged, each with ten trials that suit it as
/// it was.
pub fn trials(seeds: Range<u64>) -> impl Iterator<Item = (Table, Vec<Call>)> {
    let mut random = Random(seeds.end);
    seeds.map(move |seed| {
        let mut table = Random(seed).sound_table();
        let plan = plan_of(&table);
        if seed % 6 == 5 {
            random.damage(&mut table);
        }
        let calls = (0..10).map(|_| random.trial(&plan)).collect();
        (table, calls)
    })
}

/// The key line of a command; of an add, that for cabin 0. A number too wide for its digits makes
/// the line malformed.
pub fn key_text(command: Command) -> Vec<u8> {
    let text = match command {
        Command::Add { holder, exit, kind, content, cabin: _ } => {
            format!("H*1{holder:03}{exit}{kind}{content:03}A")
        }
        Command::Link { source, source_exit, second, second_exit } => {
            format!("H*2{source:03}{source_exit}{second:03}{second_exit}A")
        }
        Command::Clear { step, exit } => format!("H*3{step:03}{exit}A"),
        Command::Count => "H*4A".to_string(),
    };
    text.into_bytes()
}
