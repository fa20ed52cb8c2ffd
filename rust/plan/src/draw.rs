//! A picture of a plan: the alarm on top, strong links solid, weak ones dashed. Exits that no trial takes are grey, and steps that none enters are marked.

use crate::picture::{svg, Arrow, Node, Shade, Style};
use crate::rung::Rung;
use crate::view::{Held, View};
use crate::words::{named, place, strength, NEVER_ENTERED, NEVER_TAKEN};
use std::collections::BTreeMap;
use std::fmt::Write;
use telephone::{Exit, Kind, Step};

/// The lines in a step's box.
fn lines(number: u16, step: &Step, rung: &Rung) -> Vec<String> {
    let lines = match step.kind {
        Kind::Contact(0) => ["contact 0".to_string(), "the primary".to_string()].to_vec(),
        kind => vec![kind.to_string()],
    };
    let cabin = (step.cabin != 0).then(|| format!("cabin {}", step.cabin));
    let never = rung.never_enters(number).then(|| NEVER_ENTERED.to_string());
    let more = cabin.into_iter().chain(never).collect();
    [vec![format!("step {number}")], lines, more].concat()
}

/// A link in words.
fn title(view: &View, rung: &Rung, held: &Held) -> String {
    let never = rung.never_taken(view, held);
    format!(
        "{} ({}): {} link to {}{}",
        place(held),
        held.exit,
        strength(held),
        named(view, held.link.target),
        never.map_or(String::new(), |reason| format!("; {NEVER_TAKEN}: {reason}"))
    )
}

/// The picture as an SVG document.
pub fn as_svg(name: &str, view: &View, rung: &Rung) -> String {
    let shade = |number, kind| match kind {
        _ if rung.never_enters(number) => Shade::Open,
        Kind::Alarm => Shade::First,
        Kind::Contact(_) => Shade::Second,
        Kind::Message(_) => Shade::Third,
        _ => Shade::Fourth,
    };
    let label = |step: &Step, exit| step.exit(exit).map_or(String::new(), |_| exit.to_string());
    let node = |(&number, step): (&u16, &Step)| Node {
        text: lines(number, step, rung),
        cells: Exit::ALL.iter().map(|&exit| label(step, exit)).collect(),
        shade: shade(number, step.kind),
    };
    let nodes: Vec<Node> = view.steps.iter().map(node).collect();
    let boxes: BTreeMap<u16, usize> =
        view.steps.keys().enumerate().map(|(at, &n)| (n, at)).collect();
    let style = |held: &Held| match (held.strong, rung.never_taken(view, held)) {
        (true, None) => Style::Solid,
        (false, None) => Style::Dashed,
        (true, Some(_)) => Style::PaleSolid,
        (false, Some(_)) => Style::PaleDashed,
    };
    let arrow = |held: Held| {
        Some(Arrow {
            from: *boxes.get(&held.step)?,
            cell: held.exit as usize,
            to: *boxes.get(&held.link.target)?,
            style: style(&held),
            title: title(view, rung, &held),
        })
    };
    let arrows: Vec<Arrow> = view.links().filter_map(arrow).collect();
    let mut legend = vec![(Style::Solid, "strong link"), (Style::Dashed, "weak link")];
    if has_untaken(view, rung) {
        legend.push((Style::PaleSolid, NEVER_TAKEN));
    }
    let groups: &[(Shade, &str)] =
        if has_unentered(view, rung) { &[(Shade::Open, NEVER_ENTERED)] } else { &[] };
    svg(name, &legend, groups, &nodes, &arrows)
}

/// Whether some exit is never taken.
fn has_untaken(view: &View, rung: &Rung) -> bool {
    view.links().any(|held| rung.never_taken(view, &held).is_some())
}

/// Whether some step is never entered.
fn has_unentered(view: &View, rung: &Rung) -> bool {
    view.steps.keys().any(|&step| rung.never_enters(step))
}

/// The picture for Graphviz.
pub fn as_dot(name: &str, view: &View, rung: &Rung) -> String {
    let mut text = format!("digraph \"{}\" {{\n", dot_escaped(name));
    text += "  node [shape=plain, fontname=\"sans-serif\"];\n  edge [fontname=\"sans-serif\"];\n";
    let untaken = has_untaken(view, rung).then(|| format!("grey links: {NEVER_TAKEN}"));
    let unentered = has_unentered(view, rung).then(|| format!("dashed boxes: {NEVER_ENTERED}"));
    let legend: Vec<String> = untaken.into_iter().chain(unentered).collect();
    if !legend.is_empty() {
        text += &format!("  graph [fontname=\"sans-serif\", label=\"{}\"];\n", legend.join("; "));
    }
    for (&number, step) in &view.steps {
        let cells: String = Exit::ALL.iter().map(|&exit| dot_cell(step, exit)).collect();
        let title = lines(number, step, rung).join("<BR/>");
        let border = match rung.never_enters(number) {
            false => "BORDER=\"0\" CELLBORDER=\"1\"",
            true => "BORDER=\"1\" STYLE=\"dashed\" CELLBORDER=\"0\"",
        };
        // a text takes everything that is written to it
        let _ = writeln!(
            text,
            "  s{number} [label=<<TABLE {border} CELLSPACING=\"0\"><TR><TD COLSPAN=\"4\">{title}</TD></TR><TR>{cells}</TR></TABLE>>];"
        );
    }
    for held in view.links() {
        let style = if held.strong { "solid" } else { "dashed, constraint=false" };
        let never = rung.never_taken(view, &held);
        let grey = never.map_or("", |_| ", color=gray60, arrowhead=empty");
        let (step, exit, target) = (held.step, held.exit.number(), held.link.target);
        let _ = writeln!(text, "  s{step}:e{exit}:s -> s{target}:n [style={style}{grey}];");
    }
    text + "}\n"
}

fn dot_cell(step: &Step, exit: Exit) -> String {
    let label = step.exit(exit).map_or("&#160;".to_string(), |_| exit.to_string());
    format!("<TD PORT=\"e{}\">{label}</TD>", exit.number())
}

/// A text within quotation marks.
fn dot_escaped(text: &str) -> String {
    text.replace('\\', "\\\\").replace('"', "\\\"")
}
