//! Squeezes through the interface and on the second program: every capacity on tables with any strengths, and the laws of a squeeze, of which each
//! call is made by both. `cabins` has more of the lists.

use compare::{as_said, both, Refusals};
use reference::generate::Random;
use reference::history::Call;
use reference::laws;

/// Every capacity up to 8 bits and some above, on sound tables and damaged ones; of each refusal there are many.
#[test]
fn every_capacity() {
    let mut random = Random(61);
    let mut refusals = Refusals::default();
    for seed in 0..60 {
        let mut table = Random(seed).sound_table();
        for _ in 0..seed % 3 {
            random.damage(&mut table);
        }
        for capacity in (0..=260).chain([32767, 32768, 65408, 65535]) {
            let quotas = random.list(capacity, &table.charges());
            let refusal = as_said(&table, &Call::Squeeze { capacity, quotas }).refusal;
            refusals[usize::from(refusal)] += 1;
        }
    }
    for refusal in [0, 1, 2, 13, 16] {
        assert!(refusals[refusal] > 400, "{refusals:?}");
    }
}

#[test]
fn steps_travel() {
    assert!(laws::steps_travel(&both, 1000..1200) > 1000);
}

#[test]
fn twice_is_once() {
    assert!(laws::twice_is_once(&both, 1200..1400) > 100);
}

#[test]
fn trials_end_alike() {
    assert!(laws::trials_end_alike(&both, 1400..1600) > 1000);
}

#[test]
fn clearings_count_alike() {
    assert!(laws::clearings_count_alike(&both, 1600..1640) > 100);
}
