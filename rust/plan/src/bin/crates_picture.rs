//! Prints a picture of the crates of the repository as an SVG document: a box for each crate, and arrows to those that it stands on.
//! Takes the path of the repository, or the current directory.

use plan::picture::{svg, Arrow, Node, Shade, Style};
use std::io::Write;
use std::path::Path;
use std::process::ExitCode;

const TITLE: &str = "The crates, each above those that it stands on";

/// A crate as `crates.txt` has it.
struct Crate {
    name: String,
    /// The number of the comment above it.
    group: usize,
    /// The crates of the list that it stands on.
    stands_on: Vec<usize>,
}

fn main() -> ExitCode {
    let arguments: Vec<_> = std::env::args_os().skip(1).collect();
    let picture = match &arguments[..] {
        [] => picture(Path::new(".")),
        [root] => picture(Path::new(root)),
        _ => Err("takes one argument, the path of the repository".to_string()),
    };
    let print = |text: String| {
        let mut out = std::io::stdout().lock();
        out.write_all(text.as_bytes()).and_then(|()| out.flush()).map_err(|e| e.to_string())
    };
    match picture.and_then(print) {
        Ok(()) => ExitCode::SUCCESS,
        Err(error) => {
            eprintln!("crates_picture: {error}");
            ExitCode::FAILURE
        }
    }
}

/// The picture of the crates of a repository.
fn picture(root: &Path) -> Result<String, String> {
    let list = root.join("crates.txt");
    let text = std::fs::read_to_string(&list).map_err(|e| format!("{}: {e}", list.display()))?;
    let (crates, groups) = read(&text)?;
    let shade = |group: usize| Shade::ALL[group % Shade::ALL.len()];
    let node =
        |c: &Crate| Node { text: vec![c.name.clone()], cells: vec![], shade: shade(c.group) };
    let nodes: Vec<Node> = crates.iter().map(node).collect();
    let arrow = |(from, to): (usize, usize)| {
        let title = format!("{} stands on {}", crates[from].name, crates[to].name);
        Arrow { from, cell: 0, to, style: Style::Solid, title }
    };
    let arrows: Vec<Arrow> = shortest(&crates).into_iter().map(arrow).collect();
    let groups: Vec<(Shade, &str)> =
        groups.iter().enumerate().map(|(i, group)| (shade(i), group.as_str())).collect();
    let legend = [(Style::Solid, "stands on; left out where a longer way leads there")];
    Ok(svg(TITLE, &legend, &groups, &nodes, &arrows))
}

/// The crates of a list, and its groups: the comments with crates below them.
fn read(text: &str) -> Result<(Vec<Crate>, Vec<String>), String> {
    let mut comment = "Crates";
    let mut groups: Vec<String> = vec![];
    let mut entries = vec![];
    for (i, line) in text.lines().enumerate() {
        if let Some(text) = line.trim_start().strip_prefix('#') {
            comment = text;
        } else if !line.trim().is_empty() {
            let entry = line.split_once(':');
            let (name, below) =
                entry.ok_or(format!("crates.txt, line {}: no colon after a name", i + 1))?;
            let gist = comment.split([':', '.']).next().unwrap_or("").trim().replace('`', "");
            if groups.last() != Some(&gist) {
                groups.push(gist);
            }
            // a static library has that word after its name
            let name = name.split_whitespace().next().unwrap_or("");
            entries.push((name, groups.len() - 1, below));
        }
    }
    let number = |name: &str| entries.iter().position(|entry| entry.0 == name);
    let entry = |&(name, group, below): &(&str, usize, &str)| Crate {
        name: name.to_string(),
        group,
        stands_on: below.split_whitespace().filter_map(number).collect(),
    };
    Ok((entries.iter().map(entry).collect(), groups))
}

/// The arrows between crates, without those for which there is a longer way.
fn shortest(crates: &[Crate]) -> Vec<(usize, usize)> {
    let count = crates.len();
    let mut below: Vec<Vec<bool>> =
        crates.iter().map(|c| (0..count).map(|to| c.stands_on.contains(&to)).collect()).collect();
    // Invariant: `below[a][b]` holds where a way leads from a to b through crates before `by` only.
    for by in 0..count {
        for from in 0..count {
            for to in 0..count {
                below[from][to] |= below[from][by] && below[by][to];
            }
        }
    }
    let mut arrows = vec![];
    for (from, c) in crates.iter().enumerate() {
        let needed = |to: &usize| !c.stands_on.iter().any(|&by| by != *to && below[by][*to]);
        arrows.extend(c.stands_on.iter().filter(|to| needed(to)).map(|&to| (from, to)));
    }
    arrows
}

#[cfg(test)]
mod tests {
    use super::*;

    #[test]
    fn a_list_is_read_and_longer_ways_stand_for_arrows() {
        let text = "# One line each.\n# Laws: of all.\na:\nb: a io\n\n# The `code`.\nc: a b\nd: a c b libc";
        let (crates, groups) = read(text).unwrap();
        assert_eq!(groups, ["Laws", "The code"]);
        let groups: Vec<usize> = crates.iter().map(|c| c.group).collect();
        assert_eq!(groups, [0, 0, 1, 1]);
        assert_eq!(crates[3].stands_on, [0, 2, 1]);
        assert_eq!(shortest(&crates), [(1, 0), (2, 1), (3, 2)]);
        assert_eq!(read("a:\nb").err().unwrap(), "crates.txt, line 2: no colon after a name");
        assert_eq!(read("a:\nb staticlib: a").unwrap().0[1].name, "b");
    }
}
