//! The plain plan, drawn from the calls' arguments alone, and the plain plan of a table.
//! It has no bits and counters; after a clearing, what step 0 reaches is marked. Charges and unmet
//! guarantees are counted as W5 says them.
//! Renders "The plain plan of a table" of document 01, W2's squeeze of it, W3's refusal of a trial,
//! W5's cabins, W7's take-back, which puts the slip's old records into it, and W8's preview and who
//! can be rung, which leave it.

use std::collections::{BTreeMap, BTreeSet};
use std::iter::zip;

use crate::cabins::{list_fits, one_cabin, pairs};
use crate::calls::Command;
use crate::history::{Call, Start};
use crate::image::{fields, in_edition_2, HEADER, RECORD};
use crate::keys::decode;
use crate::slip::changes;
use crate::sound::{capacity_fits, fits, CONTACT};
use crate::steps::STEPS_ROOM;
use crate::table::{members, place, Charges, Quotas, Table, CABINS, EXITS};

/// What the plan says of a call: the refusal, or what it knows of the answer.
pub type Said = Result<Known, u16>;

/// What the plan knows of the answer to a call: the two numbers, each if it knows it, and the bytes
/// written to the start of the lent buffer, if it knows these.
#[derive(Clone, PartialEq, Eq, Debug)]
pub struct Known {
    pub numbers: [Option<u16>; 2],
    pub listed: Option<Vec<u8>>,
}

impl From<[Option<u16>; 2]> for Known {
    fn from(numbers: [Option<u16>; 2]) -> Known {
        Known { numbers, listed: None }
    }
}

/// A step of the plan; target 0 is an empty exit.
#[derive(Clone, PartialEq, Eq, Debug, Default)]
pub struct PlanStep {
    pub kind: u16,
    pub content: u16,
    pub targets: [u16; 4],
    pub cabin: u16,
}

impl PlanStep {
    /// The number and the step that a record says, without bits.
    fn of_record(record: &[u8]) -> (u16, PlanStep) {
        let [_, _, number, kind, content, _, targets @ .., cabin] = fields::<11>(record);
        (number, PlanStep { kind, content, targets, cabin })
    }
}

/// A plain plan: capacity, last number given, guarantees and limits, and the steps in use by
/// number.
#[derive(Clone, PartialEq, Eq, Debug)]
pub struct Plan {
    pub capacity: u16,
    pub last: u16,
    pub quotas: Quotas,
    pub steps: BTreeMap<u16, PlanStep>,
}

/// The plain plan of a table.
pub fn plan_of(table: &Table) -> Plan {
    let step = |step: usize| {
        let plan_step = PlanStep {
            kind: table.kinds[step],
            content: table.contents[step],
            targets: std::array::from_fn(|exit| table.targets[place(step, exit)]),
            cabin: table.cabins[step],
        };
        (step as u16, plan_step)
    };
    Plan {
        capacity: table.capacity,
        last: table.last,
        quotas: table.quotas,
        steps: members(table.in_use()).map(step).collect(),
    }
}

impl Plan {
    /// The plan of a fresh table, or its refusal.
    pub fn fresh(capacity: u16, quotas: Quotas) -> Result<Plan, u16> {
        refuse_list(capacity, &quotas)?;
        let steps = BTreeMap::from([(0, PlanStep::default())]);
        Ok(Plan { capacity, last: 0, quotas, steps })
    }

    /// The plan of a fresh table with W5's list for edition 1. The capacity has to be in range.
    pub fn fresh_for_cabin_0(capacity: u16) -> Plan {
        Plan::fresh(capacity, one_cabin(capacity)).expect("a capacity in range")
    }

    /// The plan that the records of an accepted image of either edition say.
    pub fn of_image(image: &[u8]) -> Plan {
        let image = in_edition_2(image).expect("an accepted image");
        let [_, _, capacity, last, _, quotas @ ..] = fields::<21>(&image);
        let steps = image[HEADER..].chunks(RECORD).map(PlanStep::of_record).collect();
        Plan { capacity, last, quotas, steps }
    }

    /// Draws the first call of a history. Whether an image is accepted has to be told, since the
    /// plan does not know strengths.
    pub fn begin(start: &Start, accepted: bool) -> (Plan, Said) {
        let drawn = match start {
            Start::Fresh { capacity, quotas } => Plan::fresh(*capacity, *quotas),
            Start::Load { image } if accepted => Ok(Plan::of_image(image)),
            Start::Load { .. } => Err(12),
        };
        match drawn {
            Ok(plan) => (plan, Ok([Some(0), Some(0)].into())),
            Err(refusal) => (Plan::fresh_for_cabin_0(1), Err(refusal)),
        }
    }

    /// Draws a call into the plan, which does not know the steps made doubtful, nor what a read or
    /// a trial answers. Whether W7's calls got 11 or 18 has to be told, for the same reason.
    pub fn draw(&mut self, call: &Call, told: bool) -> Said {
        match call {
            Call::ClearWithSlip { step, exit, .. } => {
                refuse_if(*self.exit(*step, *exit)? == 0, 6)?;
                refuse_if(told, 11)?;
                self.draw_command(Command::Clear { step: *step, exit: *exit })
            }
            Call::TakeBack { slip } => {
                refuse_if(told, 18)?;
                let before = self.steps.len();
                let old = changes(slip).into_iter().map(|(old, _)| PlanStep::of_record(old));
                self.steps.extend(old);
                Ok([Some((self.steps.len() - before) as u16), Some(0)].into())
            }
            Call::PreviewClear { step, exit, buffer } => {
                let cleared =
                    self.clone().draw_command(Command::Clear { step: *step, exit: *exit })?;
                refuse_if(*buffer < STEPS_ROOM, 11)?;
                Ok(cleared)
            }
            Call::Rung { buffer } => {
                refuse_if(*buffer < STEPS_ROOM, 11)?;
                let entered = self.entered();
                let is_contact = |number: &&u16| self.steps[*number].kind == CONTACT;
                let contacts = entered.iter().filter(is_contact).count();
                let listed = entered.iter().map(|&number| number as u8).collect();
                let numbers = [entered.len(), contacts].map(|count| Some(count as u16));
                Ok(Known { numbers, listed: Some(listed) })
            }
            Call::Edit(command) => self.draw_command(*command),
            Call::KeyLine(line) => self.draw_command(decode(line).ok_or(9u16)?),
            Call::Squeeze { capacity, quotas } => {
                refuse_list(*capacity, quotas)?;
                refuse_if(usize::from(*capacity) < self.steps.len(), 13)?;
                let new = Plan { capacity: *capacity, quotas: *quotas, ..self.clone() };
                refuse_if(!new.keeps_to_list(), 13)?;
                *self = new;
                self.renumber();
                Ok([Some(0), Some(0)].into())
            }
            Call::Read { step } => self.step(*step).map(|_| [None, None].into()),
            Call::Trial { limit, results, trace } => {
                refuse_if(results.iter().any(|&result| result > 3), 10)?;
                refuse_if(*trace < usize::from(*limit), 11)?;
                Ok([None, None].into())
            }
            Call::Write { buffer } => {
                refuse_if(*buffer < self.image_length(), 11)?;
                Ok([Some(self.image_length() as u16), Some(0)].into())
            }
            Call::ImageLength => Ok([Some(self.image_length() as u16), Some(0)].into()),
        }
    }

    fn draw_command(&mut self, command: Command) -> Said {
        match command {
            Command::Add { holder, exit, kind, content, cabin } => {
                refuse_if(usize::from(cabin) >= CABINS, 16)?;
                refuse_if(*self.exit(holder, exit)? != 0, 5)?;
                refuse_if(!fits(kind, content), 7)?;
                let number = self.next_number().ok_or(8u16)?;
                self.room(cabin)?;
                *self.exit(holder, exit)? = number;
                let step = PlanStep { kind, content, cabin, ..Default::default() };
                self.steps.insert(number, step);
                self.last = number;
                Ok([Some(number), Some(0)].into())
            }
            Command::Link { source, source_exit, second, second_exit } => {
                let target = *self.exit(source, source_exit)?;
                refuse_if(target == 0, 6)?;
                let filled = self.exit(second, second_exit)?;
                refuse_if(*filled != 0, 5)?;
                *filled = target;
                Ok([Some(0), Some(0)].into())
            }
            Command::Clear { step, exit } => {
                let emptied = self.exit(step, exit)?;
                refuse_if(*emptied == 0, 6)?;
                *emptied = 0;
                let before = self.steps.len();
                let reached = self.reached();
                self.steps.retain(|number, _| reached.contains(number));
                Ok([None, Some((before - self.steps.len()) as u16)].into())
            }
            Command::Count => Ok([Some(self.steps.len() as u16), Some(self.free())].into()),
        }
    }

    /// Numbers the steps from 0 upward in their order; every target follows, and an empty one stays
    /// 0 as step 0 does. The last number given is the highest.
    fn renumber(&mut self) {
        let numbers: BTreeMap<u16, u16> = self.steps.keys().copied().zip(0..).collect();
        let steps = std::mem::take(&mut self.steps)
            .into_values()
            .map(|step| PlanStep { targets: step.targets.map(|target| numbers[&target]), ..step });
        self.steps = (0..).zip(steps).collect();
        self.last = self.steps.len() as u16 - 1;
    }

    /// Refuses one step more of this cabin, 0 to 7: by 14 where its charge is its limit; by 15
    /// where it goes beyond its guarantee and no free step remains over the unmet guarantees, which
    /// then are those of the other cabins.
    pub fn room(&self, cabin: u16) -> Result<(), u16> {
        let cabin = usize::from(cabin);
        let ([guarantee, limit], charge) = (pairs(&self.quotas)[cabin], self.charges()[cabin]);
        refuse_if(charge == limit, 14)?;
        refuse_if(charge >= guarantee && u32::from(self.free()) <= self.unmet(), 15)
    }

    /// Whether charges are within limits and the free steps are not fewer than the unmet
    /// guarantees.
    fn keeps_to_list(&self) -> bool {
        zip(pairs(&self.quotas), self.charges()).all(|([_, limit], charge)| charge <= limit)
            && u32::from(self.free()) >= self.unmet()
    }

    /// The unmet guarantees of all cabins together.
    fn unmet(&self) -> u32 {
        zip(pairs(&self.quotas), self.charges())
            .map(|([guarantee, _], charge)| u32::from(guarantee.saturating_sub(charge)))
            .sum()
    }

    /// The charges, counted step by step.
    pub fn charges(&self) -> Charges {
        let mut charges = [0; CABINS];
        for (_, step) in self.steps.range(1..) {
            charges[usize::from(step.cabin)] += 1;
        }
        charges
    }

    fn free(&self) -> u16 {
        self.capacity - self.steps.len() as u16
    }

    fn image_length(&self) -> usize {
        HEADER + RECORD * self.steps.len()
    }

    /// A step in use, or refusal 3.
    fn step(&mut self, step: u16) -> Result<&mut PlanStep, u16> {
        self.steps.get_mut(&step).ok_or(3)
    }

    /// The target at an exit of a step in use, or refusal 3 or 4.
    fn exit(&mut self, step: u16, exit: u16) -> Result<&mut u16, u16> {
        let step = self.step(step)?;
        step.targets.get_mut(usize::from(exit)).ok_or(4)
    }

    /// The free number at the least distance going round upward from the one after the last given.
    /// There is none exactly if the steps in use equal the capacity.
    fn next_number(&self) -> Option<u16> {
        (1..self.capacity)
            .filter(|number| !self.steps.contains_key(number))
            .min_by_key(|number| (number + self.capacity - self.last - 1) % self.capacity)
    }

    /// The steps that chains of targets reach from step 0.
    fn reached(&self) -> BTreeSet<u16> {
        self.reached_by(|_| EXITS)
    }

    /// The steps that some trial enters. None enters step 0, where it starts.
    fn entered(&self) -> BTreeSet<u16> {
        let mut reached = self.reached_by(|step| if step.kind == CONTACT { EXITS } else { 1 });
        reached.remove(&0);
        reached
    }

    /// The steps that chains reach from step 0, where of each step so many targets count.
    fn reached_by(&self, counted: impl Fn(&PlanStep) -> usize) -> BTreeSet<u16> {
        let mut reached = BTreeSet::new();
        let mut waiting = vec![0];
        while let Some(number) = waiting.pop() {
            if reached.insert(number) {
                let step = &self.steps[&number];
                let targets = &step.targets[..counted(step)];
                waiting.extend(targets.iter().filter(|&&target| target != 0));
            }
        }
        reached
    }
}

/// Refuses a capacity or a list.
fn refuse_list(capacity: u16, quotas: &Quotas) -> Result<(), u16> {
    refuse_if(!capacity_fits(capacity), 2)?;
    refuse_if(!list_fits(capacity, quotas), 16)
}

fn refuse_if(condition: bool, refusal: u16) -> Result<(), u16> {
    if condition {
        Err(refusal)
    } else {
        Ok(())
    }
}
