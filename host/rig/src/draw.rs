//! A tree, the trees of some slots, or the trees before and after an add side by side, as text, as DOT and as SVG.

use kalebasin::{nodes, Node, Round, Slot, Status};
use std::fmt::Write;

/// The tree as text, a node below and right of its parent.
///
/// ```
/// let table = [0, 0, 0, 3, 1, 0, 70, 3, 2, 1, 70, 1];
/// assert_eq!(kalebasin_rig::draw::text(&table), "\
/// root
/// └─ round 1, value 70, COMMITTED
///    └─ round 2, value 70, ADDED
/// ");
/// ```
pub fn text(table: &[u64]) -> String {
    let nodes: Vec<Node> = nodes(table).collect();
    let mut out = String::from("root\n");
    text_below(&nodes, Round::ROOT, "", &mut out);
    out
}

fn text_below(nodes: &[Node], round: Round, indent: &str, out: &mut String) {
    let children = children(nodes, round);
    for (at, child) in children.iter().enumerate() {
        let last = at + 1 == children.len();
        let (branch, below) = if last { ("└─", "   ") } else { ("├─", "│  ") };
        let _ = writeln!(out, "{indent}{branch} round {}, value {}, {}", child.round, child.value, child.status);
        text_below(nodes, child.round, &format!("{indent}{below}"), out);
    }
}

/// The tables of some slots, each with its slot.
pub type Trees<'a> = [(Slot, &'a [u64])];

/// The trees of some slots as text, one below the other, each below its slot. The tree of slot 0 alone has no heading, nor has it in
/// the other forms.
///
/// ```
/// use kalebasin::Slot;
///
/// let (root, grown) = ([0, 0, 0, 3], [0, 0, 0, 3, 1, 0, 70, 3]);
/// assert_eq!(kalebasin_rig::draw::text_of(&[(Slot(0), &root), (Slot(3), &grown)]), "\
/// slot 0
/// root
///
/// slot 3
/// root
/// └─ round 1, value 70, COMMITTED
/// ");
/// assert_eq!(kalebasin_rig::draw::text_of(&[(Slot(0), &root)]), "root\n");
/// ```
pub fn text_of(trees: &Trees) -> String {
    match trees {
        [(Slot(0), table)] => text(table),
        _ => {
            let each = trees.iter().map(|(slot, table)| format!("slot {slot}\n{}", text(table)));
            each.collect::<Vec<_>>().join("\n")
        }
    }
}

/// Two trees side by side as text, each below its heading.
///
/// ```
/// let (before, after) = ([0, 0, 0, 3, 1, 0, 70, 1, 0, 0, 0, 0], [0, 0, 0, 3, 1, 0, 70, 2, 2, 0, 80, 1]);
/// assert_eq!(kalebasin_rig::draw::text_beside(&before, &after), "\
/// before                          after
/// root                            root
/// └─ round 1, value 70, ADDED     ├─ round 1, value 70, GHOST
///                                 └─ round 2, value 80, ADDED
/// ");
/// ```
pub fn text_beside(before: &[u64], after: &[u64]) -> String {
    let [left, right] = [format!("before\n{}", text(before)), format!("after\n{}", text(after))];
    let width = left.lines().map(|line| line.chars().count()).max().unwrap_or(0) + BETWEEN;
    let (mut left_lines, mut right_lines) = (left.lines(), right.lines());
    let mut out = String::new();
    for _ in 0..left.lines().count().max(right.lines().count()) {
        let line = format!("{:<width$}{}", left_lines.next().unwrap_or(""), right_lines.next().unwrap_or(""));
        let _ = writeln!(out, "{}", line.trim_end());
    }
    out
}

/// The blanks between two trees.
const BETWEEN: usize = 5;

/// The children of a round, lowest first. A child's round is above its parent's, so the root is nobody's child, and nobody its
/// own.
fn children(nodes: &[Node], parent: Round) -> Vec<Node> {
    let mut children: Vec<Node> =
        nodes.iter().filter(|node| node.parent == parent && node.round > parent).copied().collect();
    children.sort_by_key(|node| node.round);
    children
}

/// The tree in the DOT language, edges from child to parent.
pub fn dot(table: &[u64]) -> String {
    format!("{DOT_HEAD}{}}}\n", dot_nodes(table, "  ", "r"))
}

/// The trees of some slots in the DOT language, each in a box with its slot, their roots at one height.
pub fn dot_of(trees: &Trees) -> String {
    match trees {
        [(Slot(0), table)] => dot(table),
        _ => {
            let name = |slot: &Slot| format!("slot{slot}_");
            let boxes = trees.iter().map(|(slot, table)| (name(slot), format!("slot {slot}"), *table));
            dot_boxes(&boxes.collect::<Vec<_>>())
        }
    }
}

/// Two trees side by side in the DOT language, each in a box with its heading, their roots at one height.
pub fn dot_beside(before: &[u64], after: &[u64]) -> String {
    dot_boxes(&[("before", before), ("after", after)].map(|(heading, table)| (heading.into(), heading.into(), table)))
}

/// Trees in boxes, each with a name, which stands in front of its rounds, and a heading.
fn dot_boxes(boxes: &[(String, String, &[u64])]) -> String {
    let roots: String = boxes.iter().map(|(name, ..)| format!(" {name}0;")).collect();
    let mut out = format!("{DOT_HEAD}  newrank = true;\n  {{ rank = same;{roots} }}\n");
    for (name, heading, table) in boxes {
        let nodes = dot_nodes(table, "    ", name);
        // rankdir = BT turns a box over, its label too
        let label = format!("    label = \"{heading}\";\n    labelloc = b;\n");
        let _ = write!(out, "  subgraph cluster_{name} {{\n{label}{nodes}  }}\n");
    }
    out + "}\n"
}

const DOT_HEAD: &str = "digraph tree {\n  rankdir = BT;\n  node [shape = box, style = filled];\n";

/// The nodes and edges of a tree, a line for each; `name` stands in front of a round.
fn dot_nodes(table: &[u64], indent: &str, name: &str) -> String {
    let mut out = String::new();
    for node in nodes(table) {
        let label = label(&node).join("\\n");
        let (round, fill) = (node.round, colour(node.status));
        let _ = writeln!(out, "{indent}{name}{round} [label = \"{label}\", fillcolor = \"{fill}\"];");
        if round != Round::ROOT {
            let _ = writeln!(out, "{indent}{name}{round} -> {name}{};", node.parent);
        }
    }
    out
}

fn label(node: &Node) -> Vec<String> {
    match node.round {
        Round::ROOT => vec!["root".to_string()],
        round => vec![format!("round {round}"), format!("value {}", node.value), node.status.to_string()],
    }
}

fn colour(status: Status) -> &'static str {
    match status {
        Status::Added => "#ffffff",
        Status::Ghost => "#d0d0d0",
        Status::Committed => "#a8d8a8",
    }
}

/// Room for the largest value in a wide font.
const BOX_WIDTH: usize = 226;
const BOX_HEIGHT: usize = 58;
const GAP: usize = 24;
const LINE: usize = 16;
/// The height of a heading.
const HEADING: usize = 32;

/// A node with its place: columns count leaves from the left in half steps, rows count from the root.
struct Placed {
    node: Node,
    column: usize,
    row: usize,
}

impl Placed {
    fn left(&self) -> usize {
        GAP + self.column * (BOX_WIDTH + GAP) / 2
    }

    fn top(&self) -> usize {
        GAP + self.row * (BOX_HEIGHT + 2 * GAP)
    }

    fn middle(&self) -> usize {
        self.left() + BOX_WIDTH / 2
    }
}

/// The tree as an SVG picture: the root at the top, each parent in the middle above its children.
pub fn svg(table: &[u64]) -> String {
    let tree = SvgTree::new(table);
    svg_picture(tree.width, tree.height, &tree.drawn)
}

/// The trees of some slots side by side as an SVG picture, each below its slot.
pub fn svg_of(trees: &Trees) -> String {
    match trees {
        [(Slot(0), table)] => svg(table),
        _ => svg_side_by_side(trees.iter().map(|(slot, table)| (format!("slot {slot}"), *table))),
    }
}

/// Two trees side by side as an SVG picture, each below its heading.
pub fn svg_beside(before: &[u64], after: &[u64]) -> String {
    svg_side_by_side([("before".into(), before), ("after".into(), after)].into_iter())
}

fn svg_side_by_side<'a>(trees: impl Iterator<Item = (String, &'a [u64])>) -> String {
    let (mut drawn, mut at, mut height) = (String::new(), 0, 0);
    for (heading, table) in trees {
        let tree = SvgTree::new(table);
        let (middle, line) = (at + tree.width / 2, HEADING - LINE / 2);
        let _ = write!(
            drawn,
            "<text x=\"{middle}\" y=\"{line}\" text-anchor=\"middle\" font-weight=\"bold\">{heading}</text>\n\
             <g transform=\"translate({at} {HEADING})\">\n{}</g>\n",
            tree.drawn
        );
        at += tree.width;
        height = height.max(tree.height);
    }
    svg_picture(at, HEADING + height, &drawn)
}

fn svg_picture(width: usize, height: usize, drawn: &str) -> String {
    format!(
        "<svg xmlns=\"http://www.w3.org/2000/svg\" width=\"{width}\" height=\"{height}\" \
         viewBox=\"0 0 {width} {height}\" font-family=\"sans-serif\" font-size=\"13\">\n{drawn}</svg>\n"
    )
}

/// A tree drawn, with a gap around it.
struct SvgTree {
    width: usize,
    height: usize,
    drawn: String,
}

impl SvgTree {
    fn new(table: &[u64]) -> SvgTree {
        let placed = place(table);
        let mut drawn = String::new();
        for child in &placed {
            if let Some(parent) = placed.iter().find(|place| place.node.round == child.node.parent) {
                svg_edge(parent, child, &mut drawn);
            }
        }
        placed.iter().for_each(|place| svg_node(place, &mut drawn));
        SvgTree {
            width: placed.iter().map(|place| place.left() + BOX_WIDTH).max().unwrap_or(0) + GAP,
            height: placed.iter().map(|place| place.top() + BOX_HEIGHT).max().unwrap_or(0) + GAP,
            drawn,
        }
    }
}

fn svg_edge(parent: &Placed, child: &Placed, out: &mut String) {
    if child.node.round == Round::ROOT {
        return;
    }
    let _ = writeln!(
        out,
        "<line x1=\"{}\" y1=\"{}\" x2=\"{}\" y2=\"{}\" stroke=\"#404040\"/>",
        parent.middle(),
        parent.top() + BOX_HEIGHT,
        child.middle(),
        child.top()
    );
}

fn svg_node(place: &Placed, out: &mut String) {
    let (left, top, fill) = (place.left(), place.top(), colour(place.node.status));
    let _ = writeln!(
        out,
        "<rect x=\"{left}\" y=\"{top}\" width=\"{BOX_WIDTH}\" height=\"{BOX_HEIGHT}\" rx=\"6\" fill=\"{fill}\" \
         stroke=\"#404040\"/>"
    );
    let lines = label(&place.node);
    let first = top + (BOX_HEIGHT - lines.len() * LINE) / 2 + LINE - 4;
    for (at, line) in lines.iter().enumerate() {
        let (x, y) = (place.middle(), first + at * LINE);
        let _ = writeln!(out, "<text x=\"{x}\" y=\"{y}\" text-anchor=\"middle\">{line}</text>");
    }
}

fn place(table: &[u64]) -> Vec<Placed> {
    let nodes: Vec<Node> = nodes(table).collect();
    let mut placed = Vec::new();
    if let Some(root) = nodes.first() {
        place_below(&nodes, *root, 0, &mut 0, &mut placed);
    }
    placed
}

/// Places a node and all below it, from the leaf column that is free; returns the node's own column.
fn place_below(nodes: &[Node], node: Node, row: usize, free: &mut usize, placed: &mut Vec<Placed>) -> usize {
    let columns: Vec<usize> =
        children(nodes, node.round).into_iter().map(|child| place_below(nodes, child, row + 1, free, placed)).collect();
    let column = match (columns.first(), columns.last()) {
        (Some(first), Some(last)) => (first + last) / 2,
        _ => {
            *free += 2;
            *free - 2
        }
    };
    placed.push(Placed { node, column, row });
    column
}
