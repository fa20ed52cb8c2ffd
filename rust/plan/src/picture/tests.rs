//! Whether pictures keep to their rules: arrows apart from each other and from the boxes, every end where it belongs, a whole document.

use super::layout::*;
use super::*;

/// A picture from the cells of each box and the arrows: from, cell, to, and whether it is solid.
fn picture(cells: &[usize], arrows: &[(usize, usize, usize, bool)]) -> (Vec<Node>, Vec<Arrow>) {
    let labels = ["answered", "engaged", "no reply", "line fault"];
    let node = |(n, &count): (usize, &usize)| Node {
        text: vec![format!("step {n}"), "message 7".to_string()][..1 + n % 2].to_vec(),
        cells: (0..count).map(|c| labels[c % 4].to_string()).collect(),
        shade: Shade::ALL[n % 5],
    };
    let arrow = |&(from, cell, to, solid): &(usize, usize, usize, bool)| {
        let style = if solid { Style::Solid } else { Style::Dashed };
        Arrow { from, cell, to, style, title: format!("{from} to {to}") }
    };
    (cells.iter().enumerate().map(node).collect(), arrows.iter().map(arrow).collect())
}

/// A plan in which each step is reached from step 0 by solid arrows, with other arrows up to a number.
fn random(steps: usize, arrows: usize, mut seed: u64) -> Vec<(usize, usize, usize, bool)> {
    let mut next = move |below: usize| {
        seed = seed.wrapping_mul(6364136223846793005).wrapping_add(1442695040888963407);
        (seed >> 33) as usize % below
    };
    let mut free: Vec<(usize, usize)> = (0..4).map(|cell| (0, cell)).collect();
    let mut plan = vec![];
    for to in 1..steps {
        let (from, cell) = free.swap_remove(next(free.len()));
        plan.push((from, cell, to, true));
        free.extend((0..4).map(|cell| (to, cell)));
    }
    while plan.len() < arrows && !free.is_empty() {
        let (from, cell) = free.swap_remove(next(free.len()));
        let to = next(steps);
        plan.push((from, cell, to, to > from && next(2) == 0));
    }
    plan
}

/// A piece of an arrow: its arrow, whether it is level, its y or x, and from where to where it goes.
type Straight = (usize, bool, f64, f64, f64);

fn pieces(drawing: &Drawing) -> Vec<Straight> {
    let mut pieces: Vec<Straight> = vec![];
    for (arrow, route) in drawing.routes.iter().enumerate() {
        for corner in route.windows(2) {
            let ((ax, ay), (bx, by)) = (corner[0], corner[1]);
            assert!(ax == bx || ay == by, "an arrow slants");
            let level = ay == by;
            let (at, a, b) = if level { (ay, ax, bx) } else { (ax, ay, by) };
            pieces.push((arrow, level, at, a.min(b), a.max(b)));
        }
    }
    pieces.sort_by(|a, b| a.1.cmp(&b.1).then(a.2.total_cmp(&b.2)));
    pieces
}

/// Pieces of different arrows are at least 5 apart, or one is behind the other.
fn check_apart(pieces: &[Straight]) {
    for (i, a) in pieces.iter().enumerate() {
        for b in pieces[i + 1..].iter().take_while(|b| b.1 == a.1 && b.2 - a.2 < 5.0) {
            assert!(a.0 == b.0 || a.4 <= b.3 || b.4 <= a.3, "{a:?} lies on {b:?}");
        }
    }
}

/// How often arrows cross, and how many corners they have.
fn count(drawing: &Drawing, pieces: &[Straight]) -> (usize, usize) {
    let (upright, level) = pieces.split_at(pieces.partition_point(|piece| !piece.1));
    let inside = |x: f64, piece: &Straight| piece.3 < x && x < piece.4;
    let cross = |a: &Straight, b: &Straight| inside(a.2, b) && inside(b.2, a);
    let crossings = |a: &Straight| level.iter().filter(|b| a.0 != b.0 && cross(a, b)).count();
    let corners = |route: &Vec<(f64, f64)>| path(route).matches('Q').count();
    (upright.iter().map(crossings).sum(), drawing.routes.iter().map(corners).sum())
}

/// Boxes are apart, and no piece comes nearer to a box than 5, save where its arrow leaves it or comes to it.
fn check_boxes(drawing: &Drawing, shapes: &[Shape], pieces: &[Straight]) {
    for (i, (shape, &(left, top))) in shapes.iter().zip(&drawing.corners).enumerate() {
        let (right, bottom) = (left + shape.width, top + shape.height);
        assert!(left.fract() == 0.0 && right.fract() == 0.0);
        for (other, &(x, y)) in shapes.iter().zip(&drawing.corners).skip(i + 1) {
            let beside = right + 10.0 < x || x + other.width + 10.0 < left;
            assert!(beside || bottom + 10.0 < y || y + other.height + 10.0 < top);
        }
        for &(arrow, level, at, from, to) in pieces {
            let across = if level { (left, right) } else { (top, bottom) };
            let (low, high) = if level { (top, bottom) } else { (left, right) };
            let touches = at > low - 5.0 && at < high + 5.0;
            let ends = !level && (to == top || from == bottom);
            let meets = to > across.0 && from < across.1;
            assert!(!touches || !meets || ends, "arrow {arrow} goes through box {i}");
        }
    }
}

/// Every arrow leaves from its cell, downward, and comes to the upper edge of its target from above.
fn check_ends(drawing: &Drawing, shapes: &[Shape], arrows: &[&Arrow]) {
    for (arrow, route) in arrows.iter().zip(&drawing.routes) {
        let (from, to) = (drawing.corners[arrow.from], drawing.corners[arrow.to]);
        let shape = &shapes[arrow.from];
        let cells = shape.cells.get(arrow.cell).or(shape.cells.last());
        let &(left, width) = cells.unwrap_or(&(0.0, shape.width));
        let (first, last) = (route[0], route[route.len() - 1]);
        assert!(first.0 > from.0 + left && first.0 < from.0 + left + width);
        assert!(first.1 == from.1 + shape.height && route[1].1 > first.1);
        assert!(last.0 > to.0 && last.0 < to.0 + shapes[arrow.to].width && last.1 == to.1);
        assert!(route[route.len() - 2].1 <= last.1 - HEAD - 5.0);
    }
}

/// Elements open and close in pairs, and there is one for each box and each arrow.
fn check_text(text: &str, boxes: usize, arrows: usize) {
    let mut open: Vec<&str> = vec![];
    for piece in text.split('<').skip(1) {
        let (tag, _) = piece.split_once('>').expect("an element ends");
        let name = tag.split(' ').next().unwrap_or("");
        match name.strip_prefix('/') {
            Some(name) => assert_eq!(open.pop(), Some(name)),
            None if !tag.ends_with('/') => open.push(name),
            None => assert_eq!(tag.matches('"').count() % 2, 0),
        }
    }
    assert!(open.is_empty() && !text.contains("NaN") && !text.contains("inf"));
    assert_eq!(text.matches("<rect class=\"box\"").count(), boxes);
    assert_eq!(text.matches("</title></path>").count(), arrows);
}

/// Draws a picture and checks all of it. Gives back how often arrows cross, and how many corners they have.
fn check(cells: &[usize], arrows: &[(usize, usize, usize, bool)]) -> (usize, usize) {
    let (nodes, arrows) = picture(cells, arrows);
    let arrows: Vec<&Arrow> = arrows.iter().collect();
    let shapes = shapes(&nodes, &arrows);
    let drawing = draw(&shapes, &arrows);
    let pieces = pieces(&drawing);
    check_apart(&pieces);
    check_boxes(&drawing, &shapes, &pieces);
    check_ends(&drawing, &shapes, &arrows);
    check_text(&body(&nodes, &arrows, &shapes, &drawing), nodes.len(), arrows.len());
    count(&drawing, &pieces)
}

#[test]
fn whole_documents() {
    for count in 0..4 {
        let (nodes, arrows) = picture(&[4; 3][..count], &[(0, 0, 1, true), (1, 0, 0, false)]);
        let groups = [(Shade::First, "A & B"); 3];
        let text = svg("<A>", &[(Style::Dashed, "weak")], &groups, &nodes, &arrows);
        check_text(&text, count + 3, if count > 1 { 2 } else { 0 });
        assert!(text.starts_with("<svg ") && text.ends_with("</svg>\n"));
        assert_eq!(text, svg("<A>", &[(Style::Dashed, "weak")], &groups, &nodes, &arrows));
    }
}

#[test]
fn small_pictures() {
    assert_eq!(check(&[], &[]), (0, 0));
    let same = [(0, 0, 0, false), (0, 1, 0, true), (0, 2, 0, false), (0, 3, 0, false)];
    assert_eq!(check(&[4], &same), (0, 16));
    let ring = [(0, 0, 1, true), (1, 0, 2, true), (1, 2, 3, true), (3, 0, 1, false)];
    assert_eq!(check(&[4; 4], &ring), (0, 6));
    assert_eq!(check(&[0; 4], &ring), (0, 6));
    // many arrows from one cell, from a cell that is not there, and to one box
    let many: Vec<_> = (0..40).map(|i| (0, 7, 1 + i % 2, i % 3 == 0)).collect();
    check(&[1, 1, 0], &many);
    check(&[0, 2, 1], &many);
}

#[test]
fn a_layer_is_the_length_of_the_longest_row() {
    let layers = |boxes: usize, arrows: &[(usize, usize, usize, bool)]| {
        let (_, arrows) = picture(&[], arrows);
        layers(boxes, &arrows.iter().collect::<Vec<_>>())
    };
    let rows = [(0, 0, 1, true), (1, 0, 2, true), (2, 0, 4, true), (0, 1, 3, true)];
    let rows = [&rows[..], &[(3, 0, 4, true), (4, 0, 5, false), (6, 0, 4, true)]].concat();
    assert_eq!(layers(7, &rows), [0, 1, 2, 1, 3, 0, 0]);
    assert_eq!(layers(4, &[(0, 0, 3, true), (3, 0, 1, true), (1, 0, 2, true)]), [0, 2, 3, 1]);
    // rings of solid arrows
    assert_eq!(layers(2, &[(0, 0, 1, true), (1, 0, 0, true)]), [0, 1]);
    let ring: Vec<_> = (0..128).map(|i| (i, 0, (i + 1) % 128, true)).collect();
    assert_eq!(layers(128, &ring), (0..128).collect::<Vec<_>>());
    assert_eq!(check(&[4; 128], &ring), (0, 4));
}

#[test]
fn plans_of_thirty_steps() {
    let (mut crossings, mut corners) = (0, 0);
    for seed in 0..8 {
        let (more, bent) = check(&[4; 30], &random(30, 29 + 6 * seed as usize, seed));
        (crossings, corners) = (crossings + more, corners + bent);
    }
    assert!(crossings <= 380 && corners <= 1000, "{crossings} crossings, {corners} corners");
}

#[test]
fn plans_of_the_largest_size() {
    let chain: Vec<_> = (1..128).map(|to| (to - 1, 2, to, true)).collect();
    assert_eq!(check(&[4; 128], &chain), (0, 0));
    let tree: Vec<_> = (1..128).map(|to| ((to - 1) / 4, (to - 1) % 4, to, true)).collect();
    assert_eq!(check(&[4; 128], &tree).0, 0);
    check(&[4; 128], &random(128, 512, 3));
    let more = (0..128).flat_map(|from| [0, 1, 3].map(|cell| (from, cell)));
    let full = more.map(|(from, cell)| (from, cell, (from * 37 + cell * 11) % 128, false));
    check(&[4; 128], &chain.into_iter().chain(full).collect::<Vec<_>>());
    let hub = (0..512).map(|i| (i / 4, i % 4, 5, false));
    check(&[4; 128], &tree.into_iter().chain(hub).take(512).collect::<Vec<_>>());
}

#[test]
fn rows_are_as_near_as_may_be() {
    assert_eq!(settled(&[(0.0, 1.0), (100.0, 1.0)], &[10.0]), [0.0, 100.0]);
    assert_eq!(settled(&[(0.0, 1.0), (4.0, 1.0)], &[10.0]), [-3.0, 7.0]);
    assert_eq!(settled(&[(0.0, 3.0), (2.0, 1.0), (50.0, 1.0)], &[10.0, 10.0]), [-2.0, 8.0, 50.0]);
}

#[test]
fn crossings_are_counted() {
    let arrows = [(0, 0, 3, true), (0, 1, 2, true), (1, 0, 3, true), (1, 1, 2, true)];
    let (nodes, arrows) = picture(&[2; 4], &arrows);
    let arrows: Vec<&Arrow> = arrows.iter().collect();
    let mut layout = Layout::new(&shapes(&nodes, &arrows), &arrows);
    assert_eq!(crossings(&layout.walk(1)), 3);
    layout.lead(0);
    layout.order();
    assert_eq!(crossings(&layout.walk(1)), 1);
}

#[test]
fn texts_are_escaped_and_numbers_short() {
    assert_eq!(escape("a<b> & \"c\"\u{1}\n"), "a&lt;b&gt; &amp; &quot;c&quot;? ");
    assert_eq!([-0.001, 1.0 / 3.0, 20.0].map(num), ["0", "0.33", "20"]);
    assert_eq!(path(&[(0.0, 0.0), (0.0, 20.0), (0.0, 40.0)]), "M0 0L0 32");
    let bent = path(&[(0.0, 0.0), (0.0, 20.0), (30.0, 20.0), (30.0, 60.0)]);
    assert_eq!(bent, "M0 0L0 15Q0 20 5 20L25 20Q30 20 30 25L30 52");
}
