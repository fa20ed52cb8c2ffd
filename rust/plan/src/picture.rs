//! A layered drawing of boxes and arrows as an SVG text.
//!
//! A box lies in the layer whose number is the length of the longest row of solid arrows to it. Every arrow leaves its box downward and comes to its
//! target from above. Between, it runs level in the gaps between layers, on tracks, and upright in channels beside the boxes of a layer. First the
//! boxes and channels of each layer are put in order, then they get their x, then the level pieces their tracks, and from these follow all y.

use std::fmt::Write;
use std::ops::Range;

mod layout;
#[cfg(test)]
mod tests;
mod tracks;

use layout::{draw, Drawing};

/// A box of a picture.
pub struct Node {
    /// Its lines of text; the first is set larger.
    pub text: Vec<String>,
    /// The cells along its lower edge, by their labels; arrows leave from a cell. With none, they leave from the lower edge itself.
    pub cells: Vec<String>,
    /// The look of the box.
    pub shade: Shade,
}

/// The look of a box: a light fill, or none and an edge of dashes.
#[derive(Clone, Copy, PartialEq, Eq, Debug)]
pub enum Shade {
    First,
    Second,
    Third,
    Fourth,
    Fifth,
    Open,
}

impl Shade {
    /// All shades with a fill, in order.
    pub const ALL: [Shade; 5] =
        [Shade::First, Shade::Second, Shade::Third, Shade::Fourth, Shade::Fifth];

    /// Its attributes.
    fn paint(self) -> String {
        let fills = ["#fde9bf", "#d9e8fa", "#d8f0d3", "#e9e9ec", "#f9dbe4", "#fff"];
        let dashes = if self == Shade::Open { " stroke-dasharray=\"4 3\"" } else { "" };
        format!("fill=\"{}\"{dashes}", fills[self as usize])
    }
}

/// The look of an arrow: a dark line, or a line of dashes in another colour. Each may be pale, with a head that is not filled.
#[derive(Clone, Copy, PartialEq, Eq, Debug)]
pub enum Style {
    Solid,
    Dashed,
    PaleSolid,
    PaleDashed,
}

impl Style {
    fn class(self) -> &'static str {
        ["solid", "dashed", "solid pale", "dashed pale"][self as usize]
    }

    fn is_solid(self) -> bool {
        matches!(self, Style::Solid | Style::PaleSolid)
    }

    fn is_pale(self) -> bool {
        matches!(self, Style::PaleSolid | Style::PaleDashed)
    }
}

/// An arrow from a box to a box.
pub struct Arrow {
    /// The box that it leaves.
    pub from: usize,
    /// The cell that it leaves from; the last, if the box has fewer.
    pub cell: usize,
    /// The box that it comes to.
    pub to: usize,
    /// Its look.
    pub style: Style,
    /// What is shown when the mouse rests on it.
    pub title: String,
}

/// The picture as an SVG document, with the meaning of styles and shades. Arrows from or to a box that is not there are left out.
pub fn svg(
    title: &str,
    legend: &[(Style, &str)],
    groups: &[(Shade, &str)],
    nodes: &[Node],
    arrows: &[Arrow],
) -> String {
    let known = |a: &&Arrow| a.from < nodes.len() && a.to < nodes.len();
    let arrows: Vec<&Arrow> = arrows.iter().filter(known).collect();
    let shapes = shapes(nodes, &arrows);
    let drawing = draw(&shapes, &arrows);
    let inner = drawing.right - drawing.left;
    let (head, head_width, top) = heading(title, legend, groups, inner.max(600.0));
    let width = (inner + 2.0 * MARGIN).max(head_width + MARGIN).ceil();
    let height = (top + drawing.height + MARGIN).ceil();
    let left = ((width - inner) / 2.0).floor() - drawing.left;
    let size = format!("width=\"{width}\" height=\"{height}\"");
    let root = format!("xmlns=\"http://www.w3.org/2000/svg\" {size}");
    let mut out = format!("<svg {root} viewBox=\"0 0 {width} {height}\">\n");
    let styles = styles(arrows.iter().any(|arrow| arrow.style.is_pale()));
    out += &format!("<title>{}</title>\n{styles}<rect {size} fill=\"#fff\"/>\n", escape(title));
    out += &format!("{head}<g transform=\"translate({} {})\">\n", num(left), num(top));
    out += &body(nodes, &arrows, &shapes, &drawing);
    out + "</g>\n</svg>\n"
}

/// The arrows, and over them the boxes.
fn body(nodes: &[Node], arrows: &[&Arrow], shapes: &[Shape], drawing: &Drawing) -> String {
    let mut out = String::new();
    for (arrow, route) in arrows.iter().zip(&drawing.routes) {
        let (class, d, title) = (arrow.style.class(), path(route), escape(&arrow.title));
        out += &format!("<path class=\"{class}\" d=\"{d}\"><title>{title}</title></path>\n");
    }
    for ((node, shape), &(left, top)) in nodes.iter().zip(shapes).zip(&drawing.corners) {
        write_box(&mut out, node, shape, left, top);
    }
    out
}

// Sizes, in pixels.

/// White on each side of the picture.
const MARGIN: f64 = 20.0;
/// Between the edge of a box and its text, and between the corner of a box and an arrow.
const PAD: f64 = 9.0;
/// The least distance of two ends of arrows on one edge of a box.
const PORT: f64 = 10.0;
/// The least distance of a channel from its neighbours in the layer, and of two level pieces on one track.
const CLEAR: f64 = 12.0;
/// The least distance of two boxes of a layer.
const BESIDE: f64 = 26.0;
/// How far a place may be moved to make an arrow straight.
const ASIDE: f64 = 150.0;
/// Upright pieces nearer than this would be taken for one.
const NEAR: f64 = 6.0;
/// The distance of two tracks, and the white above the first track of a gap and below the last.
const TRACK: f64 = 9.0;
const ABOVE: f64 = 11.0;
const BELOW: f64 = 19.0;
/// The length of an arrow head.
const HEAD: f64 = 8.0;
/// The heights of the first line of text, of another line, and of the cells.
const FIRST_LINE: f64 = 18.0;
const LINE: f64 = 14.0;
const CELL: f64 = 16.0;

/// The size of a box, and the left edge and the width of each cell.
struct Shape {
    width: f64,
    height: f64,
    cells: Vec<(f64, f64)>,
}

/// The width of a text in a font of the given size, rather too large than too small.
fn text_width(text: &str, size: f64) -> f64 {
    let width = |c| match c {
        'i' | 'j' | 'l' | '.' | ',' | ':' | ';' | '\'' | '|' | '!' | ' ' => 0.34,
        'f' | 't' | 'r' | 'I' | '(' | ')' | '-' | '/' => 0.42,
        'A'..='L' | 'N'..='V' | 'X'..='Z' => 0.76,
        c if c.is_ascii() && !"mwMW@%".contains(c) => 0.64,
        _ => 1.0,
    };
    text.chars().map(width).sum::<f64>() * size
}

/// The shape of each box: wide enough for its text, its cells and the ends of its arrows.
fn shapes(nodes: &[Node], arrows: &[&Arrow]) -> Vec<Shape> {
    let shape = |(n, node): (usize, &Node)| {
        let ports = |ends: usize| ends as f64 * PORT;
        let leave = |c: usize| {
            let last = node.cells.len().saturating_sub(1);
            ports(arrows.iter().filter(|a| a.from == n && a.cell.min(last) == c).count())
        };
        let cell = |(c, label): (usize, &String)| {
            let text = if label.is_empty() { 14.0 } else { text_width(label, 10.0) + 8.0 };
            text.max(leave(c))
        };
        let cells: Vec<f64> = node.cells.iter().enumerate().map(cell).collect();
        let row: f64 = cells.iter().sum();
        let size = |(i, line): (usize, &String)| text_width(line, if i == 0 { 14.5 } else { 11.0 });
        let text = node.text.iter().enumerate().map(size).fold(30.0, f64::max);
        let come = ports(arrows.iter().filter(|a| a.to == n).count());
        let inner = text.max(come).max(if cells.is_empty() { leave(0) } else { 0.0 });
        let width = ((inner + 2.0 * PAD).max(row) / 2.0).ceil() * 2.0;
        let extra = (width - row) / cells.len().max(1) as f64;
        let left = |c: usize| cells[..c].iter().sum::<f64>() + extra * c as f64;
        let cells: Vec<(f64, f64)> =
            (0..cells.len()).map(|c| (left(c), cells[c] + extra)).collect();
        let lines = FIRST_LINE + node.text.len().saturating_sub(1) as f64 * LINE + 7.0;
        Shape { width, height: lines + if cells.is_empty() { 0.0 } else { CELL }, cells }
    };
    nodes.iter().enumerate().map(shape).collect()
}

const STYLES: &str = "<style>
text{font-family:'DejaVu Sans',Verdana,Helvetica,Arial,sans-serif;font-size:11px;fill:#1c1c1c}
text.title{font-size:16px;font-weight:bold}
text.first{font-size:13px;font-weight:bold}
text.cell{font-size:10px;text-anchor:middle}
rect.box{stroke:#444;stroke-width:1.2}
path.lines{fill:none;stroke:#888;stroke-width:0.8}
path.solid{fill:none;stroke:#222;stroke-width:1.5;marker-end:url(#solid)}
path.dashed{fill:none;stroke:#c2410c;stroke-width:1.5;stroke-dasharray:5 3;marker-end:url(#dashed)}
path.solid:hover,path.dashed:hover{stroke-width:4}
";

/// The styles and the heads of arrows, those of pale ones only where there are such.
fn styles(pale: bool) -> String {
    let mut heads = head("solid", "fill=\"#222\"") + &head("dashed", "fill=\"#c2410c\"");
    let mut styles = STYLES.to_string();
    if pale {
        styles += "path.pale{stroke:#999;stroke-width:1.2;marker-end:url(#pale)}\n";
        heads += &head("pale", "fill=\"#fff\" stroke=\"#999\"");
    }
    format!("{styles}</style>\n<defs>\n{heads}</defs>\n")
}

/// The head of an arrow.
fn head(id: &str, paint: &str) -> String {
    let size = "viewBox=\"0 0 8 8\" refY=\"4\" markerWidth=\"8\" markerHeight=\"8\"";
    let marker = format!("id=\"{id}\" {size} markerUnits=\"userSpaceOnUse\" orient=\"auto\"");
    format!("<marker {marker}>\n<path d=\"M0 0.5L8 4L0 7.5Z\" {paint}/>\n</marker>\n")
}

/// A number with at most two decimals.
fn num(x: f64) -> String {
    ((x * 100.0).round() / 100.0 + 0.0).to_string()
}

/// A text with the marks of XML written out; characters that XML does not have become question marks.
fn escape(text: &str) -> String {
    let mut out = String::new();
    for c in text.chars() {
        match c {
            '&' => out += "&amp;",
            '<' => out += "&lt;",
            '>' => out += "&gt;",
            '"' => out += "&quot;",
            '\t' | '\n' | '\r' => out.push(' '),
            '\0'..='\x1f' | '\u{fffe}' | '\u{ffff}' => out.push('?'),
            c => out.push(c),
        }
    }
    out
}

/// The way of an arrow with round corners, up to its head.
fn path(route: &[(f64, f64)]) -> String {
    let mut points: Vec<(f64, f64)> = vec![];
    for &(x, y) in route {
        // A point between two others on a line is no corner.
        if matches!(points[..], [.., a, b] if (a.0 == b.0 && b.0 == x) || (a.1 == b.1 && b.1 == y))
        {
            points.pop();
        }
        points.push((x, y));
    }
    if let Some(last) = points.last_mut() {
        last.1 -= HEAD;
    }
    let mut out = String::new();
    for (i, &(x, y)) in points.iter().enumerate() {
        // Where the round of the corner begins, on the way to a neighbour.
        let round = |to: (f64, f64)| {
            let length = ((to.0 - x).abs() + (to.1 - y).abs()).max(0.01);
            let part = (5.0 / length).min(0.5);
            format!("{} {}", num(x + (to.0 - x) * part), num(y + (to.1 - y) * part))
        };
        let corner = format!("{} {}", num(x), num(y));
        out += &match (points[..i].last(), points.get(i + 1)) {
            (None, _) => format!("M{corner}"),
            (_, None) => format!("L{corner}"),
            (Some(&last), Some(&next)) => format!("L{}Q{corner} {}", round(last), round(next)),
        };
    }
    out
}

/// A box with its text and cells.
fn write_box(out: &mut String, node: &Node, shape: &Shape, left: f64, top: f64) {
    let [x, y, width, height] = [left, top, shape.width, shape.height].map(num);
    let paint = node.shade.paint();
    *out += &format!("<rect class=\"box\" x=\"{x}\" y=\"{y}\" width=\"{width}\" height=\"{height}\" rx=\"4\" {paint}/>\n");
    for (i, line) in node.text.iter().enumerate() {
        let class = if i == 0 { "first" } else { "line" };
        let y = top + FIRST_LINE - 1.0 + i as f64 * LINE;
        *out += &text(class, left + PAD, y, line);
    }
    let row = top + shape.height - CELL;
    for (label, (x, width)) in node.cells.iter().zip(&shape.cells) {
        if !label.is_empty() {
            *out += &text("cell", left + x + width / 2.0, row + 12.0, label);
        }
    }
    if !shape.cells.is_empty() {
        let mut lines = format!("M{x} {}h{width}", num(row));
        for (x, _) in shape.cells.iter().skip(1) {
            let _ = write!(lines, "M{} {}v{CELL}", num(left + x), num(row));
        }
        *out += &format!("<path class=\"lines\" d=\"{lines}\"/>\n");
    }
}

fn text(class: &str, x: f64, y: f64, text: &str) -> String {
    format!("<text class=\"{class}\" x=\"{}\" y=\"{}\">{}</text>\n", num(x), num(y), escape(text))
}

/// The title and the legend in rows of about the given width, and their width and height.
fn heading(
    title: &str,
    legend: &[(Style, &str)],
    groups: &[(Shade, &str)],
    width: f64,
) -> (String, f64, f64) {
    let line = |style: Style| format!("<path class=\"{}\" d=\"M0 -4h26\"/>", style.class());
    let size = "y=\"-11\" width=\"32\" height=\"14\" rx=\"3\"";
    let square = |shade: Shade| format!("<rect class=\"box\" {size} {}/>", shade.paint());
    let lines = legend.iter().map(|&(style, label)| (line(style), label));
    let squares = groups.iter().map(|&(shade, label)| (square(shade), label));
    let mut out = text("title", MARGIN, 34.0, title);
    let (mut x, mut y, mut right) = (MARGIN, 34.0, MARGIN + text_width(title, 17.6));
    for (i, (mark, label)) in lines.chain(squares).enumerate() {
        let item = 64.0 + text_width(label, 11.0);
        if i == 0 || x + item > width {
            (x, y) = (MARGIN, y + 24.0);
        }
        let label = text("line", 40.0, 0.0, label);
        out += &format!("<g transform=\"translate({} {y})\">\n{mark}\n{label}</g>\n", num(x));
        x += item;
        right = right.max(x);
    }
    (out, right, y + 20.0)
}
