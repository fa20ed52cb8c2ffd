//! Trials through the interface and on the second program: W3's example, generated trials on tables with any strengths, and the law of the limit, of
//! which each call is made by both. `lengths` has rings of all kinds, with each limit.

use compare::{both, ring, Refusals};
use reference::generate::trials;
use reference::history::{Call, Outcome};
use reference::laws;
use reference::sound::WAIT;

#[test]
fn example_of_document_02() {
    let call = Call::Trial { limit: 3, results: Vec::new(), trace: 3 };
    let outcome = both(&mut ring(&[WAIT]), &call);
    assert_eq!(outcome, Outcome { refusal: 0, numbers: vec![2, 1, 3], lent: vec![1, 1, 1] });
}

/// Trials on sound tables and damaged ones; of each ending and each refusal there are many, and of each ending many at the limit.
#[test]
fn trials_agree() {
    let (mut endings, mut at_limit, mut refusals) = ([0; 3], [0; 3], Refusals::default());
    for (mut table, calls) in trials(0..600) {
        for call in calls {
            let outcome = both(&mut table, &call);
            let Call::Trial { limit, .. } = call else { unreachable!() };
            refusals[usize::from(outcome.refusal)] += 1;
            if outcome.refusal == 0 {
                endings[outcome.numbers[0]] += 1;
                at_limit[outcome.numbers[0]] += usize::from(outcome.numbers[2] == limit.into());
            }
        }
    }
    println!("{endings:?}, at the limit {at_limit:?}, refused {refusals:?}");
    assert!(endings.iter().chain(&at_limit).all(|&ended| ended > 200));
    assert!([1, 10, 11].into_iter().all(|refusal: usize| refusals[refusal] > 200));
}

#[test]
fn larger_limits_go_on() {
    assert!(laws::larger_limits_go_on(&both, 1640..1800) > 1000);
}
