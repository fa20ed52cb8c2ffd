//! (c) The plain plan in Rust, with no bits and no counters: after each clearing, what step 0 reaches is marked and the rest is taken out.
//! It has no table that could be unsound, so it makes no soundness test; it cannot answer the doubtful count. Beside the plan it keeps the charges.
//! Who can be rung is marked too, by the exits that a trial takes.

use crate::quotas::{refuse_list, refuse_step, Charges};
use telephone::raw::{Quotas, Table};

#[derive(Clone)]
pub struct Plan {
    capacity: u16,
    last: u16,
    used: u128,
    kinds: [u16; 128],
    contents: [u16; 128],
    targets: [[u8; 4]; 128],
    cabins: [u8; 128],
    quotas: Quotas,
    charges: Charges,
}

impl Plan {
    pub fn fresh(capacity: u16, quotas: Quotas) -> Plan {
        Plan {
            capacity,
            last: 0,
            used: 1,
            kinds: [0; 128],
            contents: [0; 128],
            targets: [[0; 4]; 128],
            cabins: [0; 128],
            quotas,
            charges: [0; 8],
        }
    }

    /// The plan of a sound table.
    pub fn of(table: &Table) -> Plan {
        let fresh = Plan::fresh(table.capacity, table.quotas);
        let mut plan = Plan { last: table.last, used: 0, ..fresh };
        for step in 0..128 {
            plan.used |= u128::from(table.used[step]) << step;
            plan.targets[step] = std::array::from_fn(|exit| table.targets[step * 4 + exit] as u8);
        }
        (plan.kinds, plan.contents) = (table.kinds, table.contents);
        plan.cabins = table.cabins.map(|cabin| cabin as u8);
        plan.charges = plan.charged(plan.used & !1);
        plan
    }

    /// Whether two plans are the same. What stands at steps out of use does not count.
    pub fn agrees(&self, other: &Plan) -> bool {
        let step = |plan: &Plan, i: usize| {
            (plan.kinds[i], plan.contents[i], plan.targets[i], plan.cabins[i])
        };
        let numbers =
            |plan: &Plan| (plan.capacity, plan.last, plan.used, plan.quotas, plan.charges);
        let in_use = |i: &usize| self.used >> i & 1 == 1;
        numbers(self) == numbers(other)
            && (0..128).filter(in_use).all(|i| step(self, i) == step(other, i))
    }

    fn exit(&mut self, step: u16, exit: u16) -> Result<&mut u8, u16> {
        if step >= 128 || self.used >> step & 1 == 0 {
            return Err(3);
        }
        self.targets[usize::from(step)].get_mut(usize::from(exit)).ok_or(4)
    }

    /// How many of these steps each cabin has.
    fn charged(&self, mut steps: u128) -> Charges {
        let mut charges = Charges::default();
        while steps != 0 {
            charges[usize::from(self.cabins[steps.trailing_zeros() as usize])] += 1;
            steps &= steps - 1;
        }
        charges
    }

    #[inline(never)]
    pub fn add(
        &mut self,
        holder: u16,
        exit: u16,
        kind: u16,
        content: u16,
        cabin: u16,
    ) -> Result<u16, u16> {
        if cabin >= 8 {
            return Err(16);
        }
        if *self.exit(holder, exit)? != 0 {
            return Err(5);
        }
        let fits = match kind {
            1 => content <= 999,
            2 => content <= 15,
            3 => (1..=600).contains(&content),
            _ => false,
        };
        if !fits {
            return Err(7);
        }
        let free = |number: &u16| self.used >> number & 1 == 0;
        let upward = (self.last + 1..self.capacity).find(free);
        let number = upward.or_else(|| (1..=self.last).find(free)).ok_or(8u16)?;
        refuse_step(self.capacity, &self.quotas, &self.charges, cabin)?;
        self.used |= 1 << number;
        self.kinds[usize::from(number)] = kind;
        self.contents[usize::from(number)] = content;
        self.targets[usize::from(number)] = [0; 4];
        self.cabins[usize::from(number)] = cabin as u8;
        self.charges[usize::from(cabin)] += 1;
        self.last = number;
        *self.exit(holder, exit)? = number as u8;
        Ok(number)
    }

    #[inline(never)]
    pub fn link(&mut self, source: u16, from: u16, second: u16, into: u16) -> Result<(), u16> {
        let target = *self.exit(source, from)?;
        if target == 0 {
            return Err(6);
        }
        let filled = self.exit(second, into)?;
        if *filled != 0 {
            return Err(5);
        }
        *filled = target;
        Ok(())
    }

    /// Gives the steps freed.
    #[inline(never)]
    pub fn clear(&mut self, step: u16, exit: u16) -> Result<u16, u16> {
        let emptied = self.exit(step, exit)?;
        if *emptied == 0 {
            return Err(6);
        }
        *emptied = 0;
        let marked = self.marked(|_| 4);
        let freed = self.used & !marked;
        let gone = self.charged(freed);
        self.charges.iter_mut().zip(gone).for_each(|(charge, gone)| *charge -= gone);
        self.used = marked;
        Ok(freed.count_ones() as u16)
    }

    /// Step 0 and what it reaches, where of each step so many exits count, by its kind.
    #[inline(always)]
    fn marked(&self, exits: impl Fn(u16) -> usize) -> u128 {
        let mut marked = 1u128;
        let mut waiting = [0u8; 128];
        let mut end = 1;
        while end > 0 {
            end -= 1;
            let step = usize::from(waiting[end]);
            for &target in &self.targets[step][..exits(self.kinds[step])] {
                if target != 0 && marked >> target & 1 == 0 {
                    marked |= 1 << target;
                    waiting[end] = target;
                    end += 1;
                }
            }
        }
        marked
    }

    /// How many steps some trial enters, and how many of these are contacts; writes their numbers.
    #[inline(never)]
    pub fn rung(&self, buffer: &mut [u8]) -> Result<(u16, u16), u16> {
        if buffer.len() < 127 {
            return Err(11);
        }
        let mut rest = self.marked(|kind| if kind == 1 { 4 } else { 1 }) & !1;
        let (steps, mut contacts) = (rest.count_ones() as u16, 0);
        for byte in &mut buffer[..usize::from(steps)] {
            *byte = rest.trailing_zeros() as u8;
            contacts += u16::from(self.kinds[usize::from(*byte)] == 1);
            rest &= rest - 1;
        }
        Ok((steps, contacts))
    }

    #[inline(never)]
    pub fn squeeze(&mut self, capacity: u16, quotas: &Quotas) -> Result<(), u16> {
        if !(1..=128).contains(&capacity) {
            return Err(2);
        }
        refuse_list(capacity, quotas, &self.charges)?;
        let size = self.used.count_ones() as u16;
        let mut numbers = [0u8; 128];
        let mut rest = self.used;
        for number in 0..usize::from(size) {
            let step = rest.trailing_zeros() as usize;
            rest &= rest - 1;
            numbers[step] = number as u8;
            self.kinds[number] = self.kinds[step];
            self.contents[number] = self.contents[step];
            self.targets[number] = self.targets[step];
            self.cabins[number] = self.cabins[step];
        }
        for target in self.targets[..usize::from(size)].as_flattened_mut() {
            *target = numbers[usize::from(*target)];
        }
        self.used = u128::MAX >> (128 - size);
        (self.capacity, self.last, self.quotas) = (capacity, size - 1, *quotas);
        Ok(())
    }
}
