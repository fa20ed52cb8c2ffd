//! The fields of a table, and what can be read from them without assuming it sound.
//! Sets of steps are marked along links, and counters are counted from all links.
//! Renders "The table" of document 01, and the fields that W5 of document 02 adds.

use std::array::from_fn;

/// Places for steps; the largest capacity.
pub const PLACES: usize = 128;
/// Exits of a step.
pub const EXITS: usize = 4;
/// Cabins that add steps.
pub const CABINS: usize = 8;

/// A list of guarantees and limits: those of cabin c at c * 2 and c * 2 + 1.
pub type Quotas = [u16; 2 * CABINS];
/// For each cabin, the number of its steps.
pub type Charges = [u16; CABINS];

/// A set of steps: bit i stands for step i.
pub type Set = u128;
/// For each step, the set of steps that its links lead to.
pub type Successors = [Set; PLACES];

/// A table. Any value may stand in any field; `sound` tells which tables are sound.
#[repr(C)]
#[derive(Clone, PartialEq, Eq, Debug)]
pub struct Table {
    pub capacity: u16,
    /// The number last given.
    pub last: u16,
    /// 1 for a step in use, 0 for a free one.
    pub used: [u16; 128],
    pub kinds: [u16; 128],
    pub contents: [u16; 128],
    /// Each step's own bit.
    pub own: [u16; 128],
    /// The target of exit e of step i at i * 4 + e; 0 is empty.
    pub targets: [u16; 512],
    /// Each link's bit, at the place of its target.
    pub bits: [u16; 512],
    /// Counter b of step i at i * 2 + b.
    pub counts: [u16; 256],
    /// The cabin that added each step; 0 for step 0 and for a free one.
    pub cabins: [u16; 128],
    pub quotas: Quotas,
}

impl Table {
    /// The table with all fields zero, which is not sound.
    pub fn zero() -> Table {
        Table {
            capacity: 0,
            last: 0,
            used: [0; 128],
            kinds: [0; 128],
            contents: [0; 128],
            own: [0; 128],
            targets: [0; 512],
            bits: [0; 512],
            counts: [0; 256],
            cabins: [0; 128],
            quotas: [0; 2 * CABINS],
        }
    }

    /// Whether a step is in use.
    pub fn has(&self, step: u16) -> bool {
        usize::from(step) < PLACES && self.used[usize::from(step)] == 1
    }

    /// The set of steps in use.
    pub fn in_use(&self) -> Set {
        (0..PLACES).fold(0, |set, step| set | Set::from(self.used[step] == 1) << step)
    }

    /// The number of steps in use.
    pub fn size(&self) -> u16 {
        self.in_use().count_ones() as u16
    }

    /// The kind of a step; 0 where there is no such step.
    pub fn kind(&self, step: u16) -> u16 {
        self.kinds.get(usize::from(step)).copied().unwrap_or(0)
    }

    /// The target at an exit; 0 where the exit is empty or there is no such exit.
    pub fn target(&self, step: u16, exit: u16) -> u16 {
        let (step, exit) = (usize::from(step), usize::from(exit));
        if step < PLACES && exit < EXITS {
            self.targets[place(step, exit)]
        } else {
            0
        }
    }

    /// The exits of steps in use that hold links: each as its step and its number.
    pub fn filled(&self) -> Vec<(u16, u16)> {
        members(self.in_use())
            .flat_map(|step| (0..EXITS as u16).map(move |exit| (step as u16, exit)))
            .filter(|&(step, exit)| self.target(step, exit) != 0)
            .collect()
    }

    /// The filled exits whose links are strong. All targets have to be in range.
    pub fn strong_exits(&self) -> Vec<(u16, u16)> {
        let is_strong = |&(step, exit): &(u16, u16)| {
            self.is_strong(place(step.into(), exit.into()), self.target(step, exit).into())
        };
        self.filled().into_iter().filter(is_strong).collect()
    }

    /// The charges: the steps in use but 0 are sorted by their cabins, so that each cabin's stand
    /// in a row. Cabins above 7 are charged nowhere.
    pub fn charges(&self) -> Charges {
        let mut sorted: Vec<u16> =
            members(self.in_use() & !1).map(|step| self.cabins[step]).collect();
        sorted.sort();
        let start = |cabin: usize| sorted.partition_point(|&of| usize::from(of) < cabin);
        from_fn(|cabin| (start(cabin + 1) - start(cabin)) as u16)
    }

    /// The links of either strength.
    pub fn links(&self) -> Successors {
        self.links_that(|_, _| true)
    }

    /// The strong links: those whose bit equals their target's bit.
    pub fn strong_links(&self) -> Successors {
        self.links_that(|place, target| self.is_strong(place, target))
    }

    /// Whether the link at a place is strong, given its target, which is in range.
    pub fn is_strong(&self, place: usize, target: usize) -> bool {
        self.bits[place] == self.own[target]
    }

    /// The links that pass a test on their place and target. Targets out of range are left out.
    pub fn links_that(&self, test: impl Fn(usize, usize) -> bool) -> Successors {
        from_fn(|step| {
            (0..EXITS).fold(0, |set, exit| {
                let place = place(step, exit);
                let target = usize::from(self.targets[place]);
                let taken = target != 0 && target < PLACES && test(place, target);
                set | Set::from(taken) << (target % PLACES)
            })
        })
    }

    /// Both counters of every step, counted from the links. Values out of range count nowhere.
    pub fn counted(&self) -> [u16; 256] {
        let mut counts = [0; 256];
        for (&target, &bit) in self.targets.iter().zip(&self.bits) {
            if target != 0 && usize::from(target) < PLACES && bit <= 1 {
                counts[usize::from(target) * 2 + usize::from(bit)] += 1;
            }
        }
        counts
    }
}

/// Where an exit's target and bit stand.
pub fn place(step: usize, exit: usize) -> usize {
    step * EXITS + exit
}

/// The steps of a set, ascending.
pub fn members(mut set: Set) -> impl Iterator<Item = usize> {
    std::iter::from_fn(move || {
        let lowest = set.trailing_zeros() as usize;
        set &= set.wrapping_sub(1);
        (lowest < PLACES).then_some(lowest)
    })
}

/// The steps that one link leads to from a step of the set.
pub fn after(set: Set, links: &Successors) -> Set {
    members(set).fold(0, |next, step| next | links[step])
}

/// The steps that chains lead to from a step of the set, the set included.
pub fn mark(set: Set, links: &Successors) -> Set {
    let (mut marked, mut new) = (set, set);
    while new != 0 {
        new = after(new, links) & !marked;
        marked |= new;
    }
    marked
}
