//! The tracks of a gap between two layers: which level piece of an arrow lies above which.

use super::*;

/// A level piece of a hop.
pub(super) struct Piece {
    /// The end of the hop that it begins with.
    pub(super) end: usize,
    /// Whether it is a side step.
    pub(super) step: bool,
    /// From where to where it goes, and whether the way goes up there.
    pub(super) ends: [(f64, bool); 2],
}

impl Piece {
    pub(super) fn left(&self) -> f64 {
        self.ends[0].0.min(self.ends[1].0)
    }

    pub(super) fn right(&self) -> f64 {
        self.ends[0].0.max(self.ends[1].0)
    }

    /// The end of a piece under this one whose upright piece would lie on one of this, if there is one.
    fn covers(&self, under: &Piece) -> Option<usize> {
        let down = |x: f64| self.ends.iter().any(|&(own, up)| !up && (own - x).abs() < NEAR);
        under.ends.iter().position(|&(x, up)| up && down(x))
    }

    /// How bad it is that this piece lies above the other: the crossings, and many for an upright piece on another.
    fn cost_above(&self, under: &Piece) -> i64 {
        let crosses = |level: &Piece, other: &Piece, up: bool| {
            let inside = |x: f64| level.left() < x && x < level.right();
            other.ends.iter().filter(|end| end.1 == up && inside(end.0)).count() as i64
        };
        let covers = if self.covers(under).is_some() { 1000 } else { 0 };
        crosses(self, under, true) + crosses(under, self, false) + covers
    }
}

/// The pieces of a gap in an order from above in which few cross: each is put where it is best, and a few times taken out and put again.
pub(super) fn sifted(pieces: Vec<Piece>) -> Vec<Piece> {
    let count = pieces.len();
    let rounds = (20_000 / (count * count).max(1)).min(4);
    let mut row: Vec<Piece> = vec![];
    for piece in pieces {
        insert(&mut row, piece);
    }
    for _ in 0..rounds * count {
        let piece = row.remove(0);
        insert(&mut row, piece);
    }
    row
}

/// Puts a piece into a row where it is best.
pub(super) fn insert(row: &mut Vec<Piece>, piece: Piece) {
    let mut cost = 0;
    let mut best = (0, 0);
    // Invariant: `cost` is what the place behind the pieces so far costs more than the first place.
    for (i, other) in row.iter().enumerate() {
        cost += other.cost_above(&piece) - piece.cost_above(other);
        best = best.min((cost, i + 1));
    }
    row.insert(best.1, piece);
}

/// Where an upright piece would still lie on another, its way down gets a side step at the top of the gap, to an x that is not taken.
pub(super) fn side_steps(pieces: &mut Vec<Piece>, mut taken: Vec<f64>) {
    let mut steps = vec![];
    for j in 0..pieces.len() {
        while let Some(e) = (0..j).find_map(|i| pieces[i].covers(&pieces[j])) {
            let x = pieces[j].ends[e].0;
            let free = |x: &f64| taken.iter().all(|t| (t - x).abs() >= NEAR);
            let aside = |i: i32| x + f64::from(if i % 2 == 0 { i } else { -i });
            let Some(way) = (1..i32::MAX).map(aside).find(free) else { break };
            taken.push(way);
            pieces[j].ends[e].0 = way;
            let ends = [(x, true), (way, false)];
            steps.push(Piece { end: pieces[j].end + e, step: true, ends });
        }
    }
    pieces.splice(0..0, steps);
}

/// The track of each piece, in an order from above: the first below all earlier pieces that it would touch.
pub(super) fn packed(pieces: &[Piece]) -> Vec<usize> {
    let mut tracks: Vec<usize> = vec![];
    for piece in pieces {
        let touches = |other: &Piece| {
            piece.left() < other.right() + CLEAR && other.left() < piece.right() + CLEAR
        };
        let above = tracks.iter().zip(pieces).filter(|t| touches(t.1)).map(|t| t.0 + 1);
        tracks.push(above.max().unwrap_or(0));
    }
    tracks
}

// The SVG text.
