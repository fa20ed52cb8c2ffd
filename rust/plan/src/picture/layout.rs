//! The places of boxes and channels, and the routes of arrows.

use super::tracks::*;
use super::*;

/// The layer of each box. In a ring of solid arrows, the box with the least number goes first.
pub(super) fn layers(boxes: usize, arrows: &[&Arrow]) -> Vec<usize> {
    let solid: Vec<&&Arrow> =
        arrows.iter().filter(|a| a.style.is_solid() && a.from != a.to).collect();
    let mut layer = vec![0; boxes];
    let mut placed = vec![false; boxes];
    // Invariant: a placed box lies below each box that was placed before it and has a solid arrow to it.
    for _ in 0..boxes {
        let waits = |b: usize| solid.iter().any(|a| a.to == b && !placed[a.from]);
        let left = || (0..boxes).filter(|&b| !placed[b]);
        let Some(next) = left().find(|&b| !waits(b)).or_else(|| left().next()) else { break };
        placed[next] = true;
        for a in solid.iter().filter(|a| a.from == next && !placed[a.to]) {
            layer[a.to] = layer[a.to].max(layer[next] + 1);
        }
    }
    layer
}

/// A place in a layer: a box, or a channel, which has no width.
struct Place {
    layer: usize,
    /// Its number in the layer, from the left.
    rank: usize,
    width: f64,
    /// Its middle.
    x: f64,
    /// The ends of hops at its upper and at its lower edge.
    ends: [Vec<usize>; 2],
}

/// The piece of an arrow in one gap. It joins two places, each above the gap or below it. Hop n has the ends 2 n and 2 n + 1, so that the other end of
/// end e is e ^ 1.
struct Hop {
    gap: usize,
    /// How strongly it pulls its places into line.
    weight: f64,
    /// The corners of its way: x and track.
    corners: Vec<(f64, usize)>,
}

/// An end of a hop.
struct End {
    place: usize,
    /// Where it may lie, from the middle of the place.
    reach: (f64, f64),
    /// Where its cell is along the place, from 0 to 1. Ends at an edge without cells have one half.
    along: f64,
    /// Where it lies.
    x: f64,
}

/// Boxes and arrows while places are sought for them. Gap g is above layer g.
pub(super) struct Layout {
    /// The boxes, then the channels.
    places: Vec<Place>,
    /// The places of each layer, from the left.
    layers: Vec<Vec<usize>>,
    hops: Vec<Hop>,
    ends: Vec<End>,
    /// The hops and the channels of each arrow.
    ways: Vec<(Range<usize>, Range<usize>)>,
    /// How many ends may still be looked at to find a better order.
    work: usize,
}

/// How many rounds are made where each may improve the picture.
const ROUNDS: usize = 16;
/// How many ends may be looked at to find the order, and how often each is looked at to make a walk. This bounds the time.
const WORK: usize = 20_000_000;
const WALK: usize = 20;
/// Where the walk round a gap ends: more than the places above and below it.
const BACK: f64 = 1e6;

impl Layout {
    /// The places and hops, in the order in which boxes and arrows are given.
    pub(super) fn new(shapes: &[Shape], arrows: &[&Arrow]) -> Layout {
        let layer = layers(shapes.len(), arrows);
        let layers = vec![vec![]; layer.iter().max().map_or(0, |l| l + 1)];
        let mut layout =
            Layout { places: vec![], layers, hops: vec![], ends: vec![], ways: vec![], work: WORK };
        for (shape, layer) in shapes.iter().zip(layer) {
            layout.add_place(layer, shape.width);
        }
        for arrow in arrows {
            layout.add_arrow(arrow, &shapes[arrow.from]);
        }
        layout
    }

    fn add_place(&mut self, layer: usize, width: f64) {
        let rank = self.layers[layer].len();
        self.layers[layer].push(self.places.len());
        self.places.push(Place { layer, rank, width, x: 0.0, ends: [vec![], vec![]] });
    }

    /// Adds the hops and channels of an arrow: in the layers between its boxes or, where it does not lead down, from its layer up to the target's.
    fn add_arrow(&mut self, arrow: &Arrow, shape: &Shape) {
        let (from, to) = (self.places[arrow.from].layer, self.places[arrow.to].layer);
        let passed: Vec<usize> =
            if from < to { (from + 1..to).collect() } else { (to..=from).rev().collect() };
        let (hops, channels) = (self.hops.len(), self.places.len());
        let edge = |width: f64| (PAD - width / 2.0, width / 2.0 - PAD);
        let cell = shape.cells.get(arrow.cell).or(shape.cells.last());
        let leave = cell.map_or(edge(shape.width), |(left, width)| {
            let middle = (left + (width - shape.width) / 2.0).round();
            (middle, middle)
        });
        let mut last = (arrow.from, leave);
        let mut gap = from + 1;
        for layer in passed {
            let channel = (self.places.len(), (0.0, 0.0));
            self.add_place(layer, 0.0);
            self.add_hop(gap, [last, channel], arrow.style);
            last = channel;
            gap = if from < to { layer + 1 } else { layer };
        }
        let come = (arrow.to, edge(self.places[arrow.to].width));
        self.add_hop(gap, [last, come], arrow.style);
        self.ways.push((hops..self.hops.len(), channels..self.places.len()));
    }

    /// Adds a hop between two places, with the reach of each end.
    fn add_hop(&mut self, gap: usize, ends: [(usize, (f64, f64)); 2], style: Style) {
        let channels = ends.iter().filter(|e| self.places[e.0].width == 0.0).count();
        let weight = [1.0, 2.0, 8.0][channels] * if style.is_solid() { 2.0 } else { 1.0 };
        for (p, reach) in ends {
            let place = &mut self.places[p];
            place.ends[usize::from(place.layer < gap)].push(self.ends.len());
            let along = 0.5 + (reach.0 + reach.1) / 2.0 / (place.width + 1.0);
            self.ends.push(End { place: p, reach, along, x: 0.0 });
        }
        self.hops.push(Hop { gap, weight, corners: vec![] });
    }

    /// How many boxes there are.
    fn boxes(&self) -> usize {
        self.places.iter().take_while(|p| p.width > 0.0).count()
    }

    /// Whether an end lies above its gap.
    fn is_above(&self, end: usize) -> bool {
        self.places[self.ends[end].place].layer < self.hops[end / 2].gap
    }

    // The order of the places in their layers.
    //
    // Walk round a gap, along its top to the right and along its bottom back. Two hops cross where one comes to their ends in turn: to an end of one, an
    // end of the other, the other end of the one, and the other end of the other. So the order of the ends on this walk says how many hops cross.

    /// Orders the places so that few arrows cross: the best of a number of rounds.
    pub(super) fn order(&mut self) {
        let mut best = (usize::MAX, self.layers.clone());
        for round in 0..ROUNDS {
            for l in 0..self.layers.len() {
                let (layer, side) =
                    if round % 2 == 0 { (l, 0) } else { (self.layers.len() - 1 - l, 1) };
                let want = |&p: &usize| (self.wanted(p, side..side + 1).0, p);
                let mut row: Vec<(f64, usize)> = self.layers[layer].iter().map(want).collect();
                row.sort_by(|a, b| a.0.total_cmp(&b.0));
                self.layers[layer] = row.iter().map(|r| r.1).collect();
                self.number(layer);
                self.set_row(layer, side..side + 1);
            }
            for _ in 0..3 {
                (0..self.boxes()).for_each(|b| self.shift(b));
                (0..self.ways.len()).for_each(|a| self.lead(a));
            }
            let gaps = 0..=self.layers.len();
            let crossings = gaps.map(|gap| crossings(&self.walk(gap))).sum();
            if crossings < best.0 {
                best = (crossings, self.layers.clone());
            }
            if crossings == 0 {
                break;
            }
        }
        self.layers = best.1;
        (0..self.layers.len()).for_each(|l| self.number(l));
    }

    /// Numbers the places of a layer.
    fn number(&mut self, layer: usize) {
        for (rank, &p) in self.layers[layer].iter().enumerate() {
            self.places[p].rank = rank;
        }
    }

    /// Takes a place out of its layer.
    fn take(&mut self, p: usize) {
        let Place { layer, rank, .. } = self.places[p];
        self.layers[layer].remove(rank);
        self.number(layer);
    }

    /// Puts a place into a slot of its layer: before the place that has this number.
    fn put(&mut self, p: usize, slot: usize) {
        let layer = self.places[p].layer;
        self.layers[layer].insert(slot, p);
        self.number(layer);
    }

    /// Moves a box to where in its layer its arrows cross the fewest others.
    fn shift(&mut self, b: usize) {
        if self.work == 0 {
            return;
        }
        let moved = b..b + 1;
        self.take(b);
        let mut costs = vec![0; self.layers[self.places[b].layer].len() + 1];
        for end in self.places[b].ends.concat() {
            let walk = self.others(end / 2, &moved);
            let crossed = crossed(&partners(&walk), self.slots(end ^ 1, &walk, &moved)[0]);
            for (cost, slot) in costs.iter_mut().zip(self.slots(end, &walk, &moved)) {
                *cost += crossed[slot];
            }
            self.work = self.work.saturating_sub(WALK * walk.len());
        }
        let best = (0..costs.len()).min_by_key(|&slot| costs[slot]);
        self.put(b, best.unwrap_or(0));
    }

    /// Leads an arrow anew, on the way with the fewest crossings.
    pub(super) fn lead(&mut self, arrow: usize) {
        let (hops, channels) = self.ways[arrow].clone();
        if channels.is_empty() || self.work == 0 {
            return;
        }
        channels.clone().for_each(|c| self.take(c));
        // For each hop so far and each slot that it may lead to: the fewest crossings up to there, and the slot that the hop then comes from.
        let mut costs = vec![vec![(0, 0)]];
        for hop in hops {
            let walk = self.others(hop, &channels);
            let partners = partners(&walk);
            let [from, to] = [0, 1].map(|e| self.slots(2 * hop + e, &walk, &channels));
            let mut row = vec![(usize::MAX, 0); to.len()];
            for (i, &start) in from.iter().enumerate() {
                let crossed = crossed(&partners, start);
                let before = costs[costs.len() - 1][i].0;
                for (best, &stop) in row.iter_mut().zip(&to) {
                    *best = (*best).min((before + crossed[stop], i));
                }
            }
            costs.push(row);
            let tried = WALK * walk.len() + from.len() * (walk.len() + to.len());
            self.work = self.work.saturating_sub(tried);
        }
        let mut slot = 0;
        for c in channels.rev() {
            slot = costs.pop().map_or(0, |row| row[slot].1);
            self.put(c, slot);
        }
    }

    /// The walk round the gap of a hop, without hops of places that are moved, and without hops that share an end with it and need not cross it.
    fn others(&self, hop: usize, moved: &Range<usize>) -> Vec<usize> {
        let moves = |end: usize| moved.contains(&self.ends[end].place);
        let own = [2 * hop, 2 * hop + 1].into_iter().filter(|&e| !moves(e));
        let own: Vec<f64> = own.map(|e| self.turn(e)).collect();
        let other = |&e: &usize| !moves(e) && !own.contains(&self.turn(e));
        let walk = self.walk(self.hops[hop].gap).into_iter();
        walk.filter(|&end| other(&end) && other(&(end ^ 1))).collect()
    }

    /// The slots where an end may lie, as numbers of ends on a walk: all of the layer if its place is moved, or else where it lies.
    fn slots(&self, end: usize, walk: &[usize], moved: &Range<usize>) -> Vec<usize> {
        let place = self.ends[end].place;
        let before = |turn: f64| walk.partition_point(|&e| self.turn(e) < turn);
        if !moved.contains(&place) {
            return vec![before(self.turn(end))];
        }
        let slots = 0..=self.layers[self.places[place].layer].len();
        let back = if self.is_above(end) { 0.0 } else { BACK };
        slots.map(|slot| before((slot as f64 - back).abs())).collect()
    }

    /// When one comes to an end on the walk round its gap: along the top to the right, and along the bottom back.
    fn turn(&self, end: usize) -> f64 {
        let along = self.places[self.ends[end].place].rank as f64 + self.ends[end].along;
        if self.is_above(end) {
            along
        } else {
            BACK - along
        }
    }

    /// The ends on the walk round a gap. Ends that share an edge or a cell are in an order in which their hops do not cross: the other ends backward.
    pub(super) fn walk(&self, gap: usize) -> Vec<usize> {
        let row = |layer: usize| self.layers.get(layer).into_iter().flatten();
        let above = row(gap.wrapping_sub(1)).map(|&p| &self.places[p].ends[1]);
        let below = row(gap).rev().map(|&p| &self.places[p].ends[0]);
        let mut walk = vec![];
        for ends in above.chain(below) {
            let first = walk.len();
            walk.extend(ends);
            let key = |end: usize| {
                let (own, other) = (self.turn(end), self.turn(end ^ 1));
                (own, if other < own { other + BACK } else { other })
            };
            if ends.len() > 1 {
                walk[first..].sort_by(|&a, &b| {
                    let (a, b) = (key(a), key(b));
                    a.0.total_cmp(&b.0).then(b.1.total_cmp(&a.1))
                });
            }
        }
        walk
    }

    // The places' x.

    /// The least distance of two neighbours of a layer.
    fn apart(&self, a: usize, b: usize) -> f64 {
        let (a, b) = (self.places[a].width, self.places[b].width);
        (a + b) / 2.0 + if a > 0.0 && b > 0.0 { BESIDE } else { CLEAR }
    }

    /// From where to where the place of an end may lie for the hop to be straight.
    fn line(&self, end: usize) -> (f64, f64) {
        let (own, other) = (&self.ends[end], &self.ends[end ^ 1]);
        let x = self.places[other.place].x;
        (x + other.reach.0 - own.reach.1, x + other.reach.1 - own.reach.0)
    }

    /// Where a place is wanted by its hops at the given edges, and how strongly.
    fn wanted(&self, p: usize, edges: Range<usize>) -> (f64, f64) {
        let place = &self.places[p];
        let (mut sum, mut weight) = (0.0, 0.0);
        for &end in place.ends[edges].iter().flatten() {
            sum += self.hops[end / 2].weight * within(place.x, self.line(end));
            weight += self.hops[end / 2].weight;
        }
        if weight > 0.0 {
            (sum / weight, weight)
        } else {
            (place.x, 0.1)
        }
    }

    /// Sets the places of a layer as near as may be to where hops at the given edges want them.
    fn set_row(&mut self, layer: usize, edges: Range<usize>) {
        let row = &self.layers[layer];
        let wanted: Vec<(f64, f64)> = row.iter().map(|&p| self.wanted(p, edges.clone())).collect();
        let apart: Vec<f64> = row.windows(2).map(|w| self.apart(w[0], w[1])).collect();
        for (&p, x) in row.iter().zip(settled(&wanted, &apart)) {
            self.places[p].x = x;
        }
    }

    /// Finds the places' x in the order that is now fixed. They are whole numbers.
    fn settle(&mut self) {
        let depth = self.layers.len();
        for _ in 0..ROUNDS {
            (0..depth).chain((0..depth).rev()).for_each(|l| self.set_row(l, 0..2));
        }
        self.places.iter_mut().for_each(|p| p.x = p.x.round());
        (0..ROUNDS).for_each(|_| self.straighten());
    }

    /// Sets boxes, and the channels of each arrow as far as possible as one, in line with what they are joined to, where their neighbours leave room.
    fn straighten(&mut self) {
        let channels: Vec<Range<usize>> = self.ways.iter().map(|w| w.1.clone()).collect();
        for all in (0..self.boxes()).map(|b| b..b + 1).chain(channels) {
            let mut first = all.start;
            while first < all.end {
                let mut room = self.room(first);
                let mut next = first + 1;
                // Invariant: the places from `first` to before `next` may all lie anywhere in `room`.
                while next < all.end {
                    let Some(both) = meet(room, self.room(next)) else { break };
                    room = both;
                    next += 1;
                }
                self.align(first..next, room);
                first = next;
            }
        }
    }

    /// Gives places that may all lie anywhere in a room one x there, not far off, in line with as many of the places that they are joined to as may be.
    fn align(&mut self, run: Range<usize>, mut room: (f64, f64)) {
        let sum: f64 = run.clone().map(|p| self.places[p].x).sum();
        let x = (sum / run.len() as f64).round();
        for &end in run.clone().flat_map(|p| self.places[p].ends.iter().flatten()) {
            let line = self.line(end);
            let inner = run.contains(&self.ends[end ^ 1].place);
            let passes = self.is_above(end) != self.is_above(end ^ 1);
            if passes && !inner && (within(x, line) - x).abs() < ASIDE {
                room = meet(room, line).unwrap_or(room);
            }
        }
        run.for_each(|p| self.places[p].x = within(x, room));
    }

    /// From where to where a place may be moved between its neighbours.
    fn room(&self, p: usize) -> (f64, f64) {
        let row = &self.layers[self.places[p].layer];
        let rank = self.places[p].rank;
        let left = row[..rank].last().map(|&n| self.places[n].x + self.apart(n, p));
        let right = row.get(rank + 1).map(|&n| self.places[n].x - self.apart(p, n));
        (left.unwrap_or(f64::NEG_INFINITY), right.unwrap_or(f64::INFINITY))
    }

    /// The ends that share an edge of a box or a cell, from the left in an order in which their hops do not cross.
    fn edges(&self) -> Vec<Vec<usize>> {
        let mut edges = vec![];
        let cell = |e: usize| (self.ends[e].place, self.is_above(e), self.ends[e].along);
        for gap in 0..=self.layers.len() {
            for ends in self.walk(gap).chunk_by(|&a, &b| cell(a) == cell(b)) {
                let mut ends = ends.to_vec();
                if !self.is_above(ends[0]) {
                    ends.reverse();
                }
                edges.push(ends);
            }
        }
        edges
    }

    /// Narrows the reach of the ends on an edge, so that each has room beside the others.
    fn share(&mut self, edge: &[usize]) {
        for (i, &end) in edge.iter().enumerate() {
            let (low, high) = self.ends[end].reach;
            let (before, after) = (i as f64 * PORT, (edge.len() - 1 - i) as f64 * PORT);
            let lacks = ((before + after - (high - low)).max(0.0) / 2.0).ceil();
            self.ends[end].reach = (low - lacks + before, high + lacks - after);
        }
    }

    /// From where to where an end may lie.
    fn reach(&self, end: usize) -> (f64, f64) {
        let End { place, reach, .. } = self.ends[end];
        (self.places[place].x + reach.0, self.places[place].x + reach.1)
    }

    /// Sets the x of every end: in line with the other end where this is possible, and else between that side of the box and its middle.
    fn set_ends(&mut self, edges: &[Vec<usize>]) {
        for end in 0..self.ends.len() {
            let (own, other) = (self.reach(end), self.reach(end ^ 1));
            let (low, high) = meet(own, other).unwrap_or(other);
            self.ends[end].x = within(((low + high) / 2.0).round(), own);
        }
        for edge in edges.iter().chain(edges) {
            let want = |&end: &usize| {
                let (low, high) = self.reach(end);
                let other = self.ends[end ^ 1].x;
                let near = within(other, (low, high));
                if near == other {
                    (near, 1e4)
                } else {
                    ((low + high + 2.0 * near) / 4.0, 1.0)
                }
            };
            let wanted: Vec<(f64, f64)> = edge.iter().map(want).collect();
            let found = settled(&wanted, &vec![PORT; edge.len()]);
            for (&end, x) in edge.iter().zip(found) {
                self.ends[end].x = within(x.round(), self.reach(end));
            }
        }
    }

    /// Gives each hop that is not straight a track of its gap. How many tracks each gap has.
    fn set_tracks(&mut self) -> Vec<usize> {
        let mut counts = vec![];
        for gap in 0..=self.layers.len() {
            let walk = self.walk(gap);
            let at = |end: usize| (self.ends[end].x, self.is_above(end));
            let piece = |&end: &usize| Piece { end, step: false, ends: [at(end), at(end ^ 1)] };
            let bent = |p: &Piece| p.left() < p.right() || p.ends[0].1 == p.ends[1].1;
            let pieces = walk.iter().filter(|&end| end % 2 == 0).map(piece).filter(bent);
            let mut pieces = sifted(pieces.collect());
            side_steps(&mut pieces, walk.iter().map(|&end| at(end).0).collect());
            let tracks = packed(&pieces);
            counts.push(tracks.iter().max().map_or(0, |t| t + 1));
            // From the last, a hop's own piece comes first; its side steps then go before or behind it.
            for (piece, track) in pieces.iter().zip(tracks).rev() {
                let corners = &mut self.hops[piece.end / 2].corners;
                let [first, last] = piece.ends.map(|(x, _)| (x, track));
                match (piece.step, piece.end % 2) {
                    (true, 0) => *corners = [&[first, last], &corners[..]].concat(),
                    (true, _) => corners.extend([last, first]),
                    (false, _) => corners.extend([first, last]),
                }
            }
        }
        counts
    }
}

/// Where everything lies: the upper left corners of boxes and the corners of the arrows' ways, from left to right, and from 0 to the height.
pub(super) struct Drawing {
    pub(super) corners: Vec<(f64, f64)>,
    pub(super) routes: Vec<Vec<(f64, f64)>>,
    pub(super) left: f64,
    pub(super) right: f64,
    pub(super) height: f64,
}

/// Finds a place for everything.
pub(super) fn draw(shapes: &[Shape], arrows: &[&Arrow]) -> Drawing {
    let mut layout = Layout::new(shapes, arrows);
    layout.order();
    let edges = layout.edges();
    edges.iter().for_each(|edge| layout.share(edge));
    layout.settle();
    layout.set_ends(&edges);
    let mut y = 0.0;
    let (mut gaps, mut layers) = (vec![], vec![]);
    for (gap, tracks) in layout.set_tracks().into_iter().enumerate() {
        gaps.push(y + ABOVE);
        let outer = gap == 0 || gap == layout.layers.len();
        let level = tracks.saturating_sub(1) as f64 * TRACK;
        y += if outer && tracks == 0 { 0.0 } else { ABOVE + level + BELOW };
        layers.push(y);
        let boxes = layout.layers.get(gap).into_iter().flatten().filter_map(|&p| shapes.get(p));
        y += boxes.map(|s| s.height).fold(0.0, f64::max);
    }
    let top = |b: usize| layers[layout.places[b].layer];
    let route = |(arrow, (hops, _)): (&&Arrow, &(Range<usize>, Range<usize>))| {
        let (first, last) = (&layout.ends[2 * hops.start], &layout.ends[2 * hops.end - 1]);
        let mut route = vec![(first.x, top(arrow.from) + shapes[arrow.from].height)];
        for hop in &layout.hops[hops.clone()] {
            let corner = |&(x, track): &(f64, usize)| (x, gaps[hop.gap] + track as f64 * TRACK);
            route.extend(hop.corners.iter().map(corner));
        }
        route.push((last.x, top(arrow.to)));
        route
    };
    let routes: Vec<Vec<(f64, f64)>> = arrows.iter().zip(&layout.ways).map(route).collect();
    let corner = |(b, s): (usize, &Shape)| (layout.places[b].x - s.width / 2.0, top(b));
    let corners: Vec<(f64, f64)> = shapes.iter().enumerate().map(corner).collect();
    let rights = corners.iter().zip(shapes).map(|(c, s)| c.0 + s.width);
    let xs = corners.iter().chain(routes.iter().flatten()).map(|p| p.0).chain(rights);
    let left = xs.clone().reduce(f64::min).unwrap_or(0.0);
    let right = xs.reduce(f64::max).unwrap_or(0.0);
    Drawing { corners, routes, left, right, height: y }
}

/// What two ranges have in common.
fn meet(a: (f64, f64), b: (f64, f64)) -> Option<(f64, f64)> {
    let both = (a.0.max(b.0), a.1.min(b.1));
    (both.0 <= both.1).then_some(both)
}

/// The number of a range that is nearest to x.
fn within(x: f64, range: (f64, f64)) -> f64 {
    x.max(range.0).min(range.1)
}

/// How often hops cross on a walk round their gap.
pub(super) fn crossings(walk: &[usize]) -> usize {
    let mut count = 0;
    let mut open: Vec<usize> = vec![];
    // Invariant: `open` has the ends behind us whose other ends are before us, in order.
    for end in walk {
        if let Some(i) = open.iter().rposition(|other| *other == end ^ 1) {
            count += open.len() - 1 - i;
            open.remove(i);
        } else {
            open.push(*end);
        }
    }
    count
}

/// For each end on a walk round a gap, where on the walk the hop's other end is.
fn partners(walk: &[usize]) -> Vec<usize> {
    let mut by_hop: Vec<usize> = (0..walk.len()).collect();
    by_hop.sort_by_key(|&i| walk[i]);
    let mut partners = vec![0; walk.len()];
    for pair in by_hop.chunks_exact(2) {
        (partners[pair[0]], partners[pair[1]]) = (pair[1], pair[0]);
    }
    partners
}

/// How many hops are crossed from before end number `start` of a walk round a gap to before each end: those with one end passed.
fn crossed(partners: &[usize], start: usize) -> Vec<usize> {
    let ends = partners.len();
    let mut counts = vec![0; ends + 1];
    let mut count = 0;
    let turn = |i: usize| if i < start { i + ends } else { i };
    for i in (start..ends).chain(0..start) {
        counts[i] = count;
        count = if turn(partners[i]) < turn(i) { count - 1 } else { count + 1 };
    }
    counts[ends] = counts[0];
    counts
}

/// Points in a row, as near to where each is wanted as the least distances of neighbours allow: with the least sum of weighted squares. `wanted` has
/// the x and the weight of each.
pub(super) fn settled(wanted: &[(f64, f64)], apart: &[f64]) -> Vec<f64> {
    let mut offset = 0.0;
    let mut offsets = vec![];
    let mut blocks: Vec<(f64, f64, usize)> = vec![];
    for (i, &(x, weight)) in wanted.iter().enumerate() {
        offsets.push(offset);
        let mut block = (x - offset, weight, 1);
        // Points that would lie too near move as one block, to their mean. Invariant: the means rise.
        while let Some(&(mean, heavy, count)) = blocks.last().filter(|last| last.0 > block.0) {
            let sum = heavy + block.1;
            block = ((mean * heavy + block.0 * block.1) / sum, sum, count + block.2);
            blocks.pop();
        }
        blocks.push(block);
        offset += apart.get(i).copied().unwrap_or(0.0);
    }
    let means = blocks.iter().flat_map(|&(mean, _, count)| std::iter::repeat_n(mean, count));
    means.zip(offsets).map(|(mean, offset)| mean + offset).collect()
}
