//! Every content of each kind, for more than one test file.

/// Each kind from 0 to 4 with each content, and whether a step other than 0 may have both.
pub fn every_content() -> impl Iterator<Item = (u16, u16, bool)> {
    let in_range = [0..0, 0..1000, 0..16, 1..601, 0..0];
    (0..).zip(in_range).flat_map(|(kind, in_range)| {
        (0..=u16::MAX).map(move |content| (kind, content, in_range.contains(&content)))
    })
}
