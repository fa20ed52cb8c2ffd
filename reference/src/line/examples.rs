//! W11's sentences on rows of calls with the numbers written out: what each call answers, and every
//! word of the dispatcher after it.

use super::generate::with_waiting;
use super::laws::{Made, Program};
use super::{Call, Words, LAST};
use crate::calls::Answer;

/// A dispatcher, and calls on it one after the other, each with its answer and the dispatcher after
/// it.
pub struct Example {
    start: Words,
    row: Vec<(Call, Answer, Words)>,
}

impl Example {
    fn from(start: Words) -> Example {
        Example { start, row: Vec::new() }
    }

    /// The dispatcher after the calls so far.
    fn end(&self) -> Words {
        self.row.last().map_or(self.start, |&(.., after)| after)
    }

    fn then(mut self, call: Call, refusal: u16, first: u16, after: Words) -> Example {
        self.row.push((call, Answer { refusal, first, second: 0 }, after));
        self
    }

    /// A call that is accepted and answers no number.
    fn changes(self, call: Call, after: Words) -> Example {
        self.then(call, 0, 0, after)
    }

    /// Such a call that changes nothing.
    fn leaves(self, call: Call) -> Example {
        let end = self.end();
        self.changes(call, end)
    }

    fn refused(self, call: Call, refusal: u16) -> Example {
        let end = self.end();
        self.then(call, refusal, 0, end)
    }

    /// "Next", which serves this cabin.
    fn serves(self, cabin: u16, after: Words) -> Example {
        self.then(Call::Next, 0, cabin, after)
    }

    /// Makes the calls by a program. Gives the first that does not give what is written here.
    pub fn wrong(&self, program: Program) -> Option<Made> {
        let mut words = self.start;
        self.row.iter().find_map(|&(call, answer, after)| {
            let made = Made::by(program, &words, call);
            words = after;
            (made.answer != answer || made.after != after).then_some(made)
        })
    }
}

/// The dispatcher with this last served in which these cabins wait, by the word 1.
fn with(cabins: &[u16], last: u16) -> Words {
    with_waiting(cabins.iter().fold(0, |waiting, cabin| waiting | 1 << cabin), last)
}

/// The dispatcher with this last served and with these words of cabins.
fn with_words(of_cabins: &[(usize, u16)], last: u16) -> Words {
    let mut words = with(&[], last);
    of_cabins.iter().for_each(|&(cabin, word)| words[cabin] = word);
    words
}

/// The dispatcher with this last served in which all but these cabins wait.
fn all_but(cabins: &[u16], last: u16) -> Words {
    let mut words = with_waiting(u16::MAX, last);
    cabins.iter().for_each(|&cabin| words[usize::from(cabin)] = 0);
    words
}

pub fn examples() -> Vec<Example> {
    use Call::{Fresh, Next, Raise, Withdraw};
    let fresh = || Example::from(with(&[], 15));
    let mut sixteen = Example::from(all_but(&[], 15));
    for cabin in 0..16 {
        sixteen = sixteen.serves(cabin, with_waiting(0xFFFE << cabin, cabin));
    }
    // each cabin that is served raises its alarm again, withdraws it and raises it once more
    let mut again = Example::from(all_but(&[], 6));
    for cabin in (7..16).chain(0..6) {
        again = again
            .serves(cabin, all_but(&[cabin], cabin))
            .changes(Raise(cabin), all_but(&[], cabin))
            .leaves(Raise(6))
            .refused(Raise(16), 20)
            .changes(Withdraw(cabin), all_but(&[cabin], cabin))
            .changes(Raise(cabin), all_but(&[], cabin));
    }
    vec![
        // a fresh dispatcher, whatever stood there
        Example::from(with_words(&[(0, 7), (9, 65_535)], 99)).changes(Fresh, with(&[], 15)),
        Example::from([65_535; LAST + 1]).changes(Fresh, with(&[], 15)).leaves(Fresh),
        // nobody waits
        fresh().refused(Next, 21),
        Example::from(with(&[], 0)).refused(Next, 21),
        // no such cabin
        Example::from(with(&[15], 4))
            .refused(Raise(16), 20)
            .refused(Withdraw(16), 20)
            .refused(Raise(32), 20)
            .refused(Withdraw(256), 20)
            .refused(Withdraw(271), 20)
            .refused(Raise(65_535), 20),
        // no such last served: 1 alone, before 20 and before 21; a fresh one is not refused
        Example::from(with(&[5], 16))
            .refused(Raise(3), 1)
            .refused(Withdraw(5), 1)
            .refused(Next, 1)
            .refused(Raise(16), 1)
            .refused(Withdraw(65_535), 1),
        Example::from(with(&[], 65_535)).refused(Next, 1).changes(Fresh, with(&[], 15)),
        // raised twice is raised once
        fresh()
            .changes(Raise(3), with(&[3], 15))
            .leaves(Raise(3))
            .serves(3, with(&[], 3))
            .refused(Next, 21),
        // any word but 0 waits, and stays as it is when its cabin raises again
        Example::from(with_words(&[(3, 700), (4, 256)], 9))
            .leaves(Raise(3))
            .changes(Withdraw(3), with_words(&[(4, 256)], 9))
            .leaves(Withdraw(3))
            .changes(Raise(3), with_words(&[(3, 1), (4, 256)], 9))
            .serves(3, with_words(&[(4, 256)], 3))
            .serves(4, with(&[], 4)),
        // a cabin that does not wait withdraws, and one that does
        fresh()
            .leaves(Withdraw(4))
            .changes(Raise(4), with(&[4], 15))
            .changes(Raise(5), with(&[4, 5], 15))
            .changes(Withdraw(4), with(&[5], 15))
            .leaves(Withdraw(4))
            .serves(5, with(&[], 5)),
        // who raised first does not matter
        fresh()
            .changes(Raise(9), with(&[9], 15))
            .changes(Raise(2), with(&[2, 9], 15))
            .changes(Raise(5), with(&[2, 5, 9], 15))
            .serves(2, with(&[5, 9], 2))
            .serves(5, with(&[9], 5))
            .serves(9, with(&[], 9))
            .refused(Next, 21),
        // going round
        Example::from(with(&[0, 3, 13, 15], 12))
            .serves(13, with(&[0, 3, 15], 13))
            .serves(15, with(&[0, 3], 15))
            .serves(0, with(&[3], 0))
            .serves(3, with(&[], 3))
            .refused(Next, 21),
        // the cabin last served waits, alone and with its neighbours
        Example::from(with(&[7], 7)).serves(7, with(&[], 7)).refused(Next, 21),
        Example::from(with(&[6, 7, 8], 7))
            .serves(8, with(&[6, 7], 8))
            .serves(6, with(&[7], 6))
            .serves(7, with(&[], 7)),
        // cabin 0 and a refusal answer the same number
        fresh()
            .refused(Next, 21)
            .changes(Raise(0), with(&[0], 15))
            .serves(0, with(&[], 0))
            .refused(Next, 21),
        // sixteen is reached, with nobody else calling and with others
        sixteen.refused(Next, 21),
        again.serves(6, all_but(&[6], 6)),
    ]
}
