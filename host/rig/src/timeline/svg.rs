//! The picture's elements.

use super::colour::Colours;
use super::layout::{answer, sent, width_of, Arrow, Item, Layout, Row, ITEM, LABEL_GAP};
use crate::trace::{Happened, Trace};
use kalebasin::{Event, Round};
use std::fmt::Write;

/// The height of the head: the key, and the names of the columns.
const HEAD: i32 = 48;
/// How much of a corner is round.
const CORNER: i32 = 4;
/// From a row's line to the one on which a message leaves for its lane.
const LEAVE: i32 = 8;

/// The rules for all elements; what tells them apart in print is here and not a matter of colour. On paper the picture gets as
/// small as the paper asks for, so that every lifeline is on it.
pub const STYLE: &str = "\
.timeline text{font:11px 'DejaVu Sans Mono','Liberation Mono',Menlo,Consolas,monospace;white-space:pre}
.timeline .end{text-anchor:end}
.timeline .middle{text-anchor:middle}
.timeline .strong{font-weight:bold}
.timeline .life{stroke:#999;stroke-width:1}
.timeline .back{fill:#000;fill-opacity:0}
.timeline .odd .back{fill-opacity:.04}
.timeline .line{fill:none;stroke-width:2}
.timeline .refused{stroke-dasharray:5 3;stroke-width:1.6}
.timeline .again{stroke-width:.8}
.timeline .stub{fill:none;stroke-width:1.6;stroke-dasharray:1.5 2.5}
.timeline .bar{fill:none;stroke-width:2}
.timeline .dot{fill:#111;stroke:#111;stroke-width:1.4}
.timeline .cross{fill:#fff;stroke:#111;stroke-width:1.4}
.timeline .badge{fill:#fff;stroke:#111;stroke-width:1}
.timeline .commit{fill:#111}
.timeline .frame{fill:none;stroke:#111;stroke-width:2}
.timeline .white{fill:#fff}
@page{size:landscape}
@media print{.timeline{max-width:100%;height:auto}}
";

/// A run as a picture, in parts that a page can use.
pub struct Picture<'a> {
    layout: Layout,
    colours: Colours,
    trace: &'a [Happened],
}

impl Picture<'_> {
    /// The picture of a run.
    pub fn new(trace: &Trace) -> Picture<'_> {
        let mut layout = Layout::new(trace);
        layout.width = layout.width.max(key().1);
        let trace = &trace.events[..];
        Picture { layout, colours: Colours::new(trace.iter().filter_map(Happened::round)), trace }
    }

    /// The rounds that occur, with their colours.
    pub fn colours(&self) -> &Colours {
        &self.colours
    }

    /// The whole picture, for a file of its own.
    pub fn svg(&self) -> String {
        let (width, height) = (self.layout.width, HEAD + self.layout.height);
        let (head, body) = (self.head(), self.body(true));
        format!(
            "{}<style>\n{STYLE}</style>\n<rect width=\"{width}\" height=\"{height}\" fill=\"#fff\"/>\n{head}\
             <g transform=\"translate(0,{HEAD})\">\n{body}</g>\n</svg>\n",
            root(width, height, "")
        )
    }

    /// The head as an element for a page.
    pub fn head_element(&self) -> String {
        format!("{}{}</svg>\n", root(self.layout.width, HEAD, " id=\"head\""), self.head())
    }

    /// All below the head as an element for a page, without titles, which would show beside the page's own words. It says how
    /// far from the lines of its two rows a trunk begins and ends, so that a script can move rows.
    pub fn body_element(&self) -> String {
        let more = format!(" id=\"body\" data-begin=\"{}\" data-end=\"{CORNER}\"", LEAVE + CORNER);
        format!("{}{}</svg>\n", root(self.layout.width, self.layout.height, &more), self.body(false))
    }

    /// The key and the names of the columns.
    fn head(&self) -> String {
        let table = self.layout.table;
        let y = HEAD - 8;
        let mut out = key().0;
        text(&mut out, "strong", table.notation, y, "event");
        text(&mut out, "strong end", table.answer, y, "answer");
        text(&mut out, "strong", table.sent, y, "sends");
        self.layout.columns.iter().for_each(|column| text(&mut out, "strong middle", column.x, y, &column.name));
        out
    }

    /// The lifelines, the rows, and the parts of arrows that go down through rows. Only a row ends its line, since a browser
    /// makes a node of each line feed.
    fn body(&self, titled: bool) -> String {
        let mut out = String::new();
        for column in self.layout.columns.iter().filter(|column| column.lives) {
            let (x, height) = (column.x, self.layout.height);
            let _ = write!(out, "<line class=\"life\" x1=\"{x}\" y1=\"0\" x2=\"{x}\" y2=\"{height}\"/>");
        }
        let mut arriving = vec![None; self.trace.len()];
        self.layout.arrows.iter().for_each(|arrow| arriving[arrow.to] = Some(arrow));
        (0..self.trace.len()).for_each(|at| self.row(&mut out, at, arriving[at], titled));
        self.layout.arrows.iter().for_each(|arrow| self.trunk(&mut out, arrow));
        out
    }

    /// The row of an event; with a title, if asked for, that says in words what happened.
    fn row(&self, out: &mut String, at: usize, arriving: Option<&Arrow>, titled: bool) {
        let (row, one) = (&self.layout.rows[at], &self.trace[at]);
        let _ = write!(
            out,
            "<g class=\"row{}\" data-at=\"{at}\" data-top=\"{}\" data-height=\"{}\" transform=\"translate(0,{})\">",
            if at % 2 == 1 { " odd" } else { "" },
            row.top,
            row.height,
            row.y
        );
        if titled {
            let _ = write!(out, "<title>{}: {}</title>", answer(one), one.explained.words);
        }
        let (top, width, height) = (-row.top, self.layout.width, row.height);
        let _ = write!(out, "<rect class=\"back\" x=\"0\" y=\"{top}\" width=\"{width}\" height=\"{height}\"/>");
        self.table_row(out, one);
        if let Some(arrow) = arriving {
            self.arrive(out, arrow);
        }
        let colour = self.colour(one.round());
        self.labels(out, row, &colour);
        self.leave(out, row, one);
        dot(out, self.layout.columns[row.column].x, one);
        out.push_str("</g>\n");
    }

    /// Number, notation, answer, and what is sent.
    fn table_row(&self, out: &mut String, one: &Happened) {
        let table = self.layout.table;
        text(out, "end", table.number, 4, &one.place.to_string());
        text(out, "", table.notation, 4, &one.explained.notation);
        let class = if one.answer == 0 { "answer end" } else { "answer end strong" };
        text(out, class, table.answer, 4, &answer(one));
        if let Some((_, message)) = one.sent {
            coloured(out, "", table.sent, 4, &self.colours.of(message.round()), &sent(one));
        }
    }

    /// The label above the row's line and the items below it.
    fn labels(&self, out: &mut String, row: &Row, colour: &str) {
        let end = self.layout.columns[row.column].x - LABEL_GAP;
        coloured(out, "label end", end - width_of(&row.refused), -6, colour, &row.label);
        if !row.refused.is_empty() {
            text(out, "end strong", end, -6, &row.refused);
        }
        for (place, item) in (0..).zip(&row.items) {
            let middle = ITEM * place + ITEM - 2;
            match item {
                Item::Add(words) => badge(out, "badge", "", end, middle, words),
                Item::Commit(words) => badge(out, "badge commit", " white", end, middle, words),
                Item::Late(words) => {
                    badge(out, "badge commit", " white", end, middle, words);
                    let (left, width) = (end - width_of(words) - 11, width_of(words) + 14);
                    let _ = write!(
                        out,
                        "<rect class=\"frame\" x=\"{left}\" y=\"{}\" width=\"{width}\" height=\"19\"/>",
                        middle - 10
                    );
                }
                Item::Note(words) => text(out, "end strong", end, middle + 5, words),
                Item::Stub(words) => text(out, "end", end - 2, middle + 4, words),
            }
        }
    }

    /// The way of a sent message to its lane, or the stub of one that is never delivered.
    fn leave(&self, out: &mut String, row: &Row, one: &Happened) {
        let Some((_, message)) = one.sent else { return };
        let x = self.layout.columns[row.column].x;
        let colour = self.colours.of(message.round());
        if let Some(lane) = row.lane {
            let _ = write!(
                out,
                "<path class=\"line leave\" d=\"M{} {CORNER}Q{} {LEAVE} {} {LEAVE}H{}Q{lane} {LEAVE} {lane} {}\" \
                 stroke=\"{colour}\"/>",
                x + 2,
                x + 2,
                x + 7,
                lane - CORNER,
                LEAVE + CORNER
            );
        } else {
            let y = ITEM * (row.items.len() as i32 - 1) + ITEM - 2;
            let _ = write!(
                out,
                "<path class=\"stub\" d=\"M{} 5Q{} {y} {} {y}H{}\" stroke=\"{colour}\"/>\
                 <path class=\"bar\" d=\"M{} {}v8\" stroke=\"{colour}\"/>",
                x - 2,
                x - 2,
                x - 7,
                x - 11,
                x - 12,
                y - 4
            );
        }
    }

    /// The way of a message from its lane to the member that gets it.
    fn arrive(&self, out: &mut String, arrow: &Arrow) {
        let one = &self.trace[arrow.to];
        let Some(lane) = self.layout.rows[arrow.from].lane else { return };
        let x = self.layout.columns[self.layout.rows[arrow.to].column].x;
        let side = if lane < x { -1 } else { 1 };
        let colour = self.colour(one.round());
        let tip = x + side * if one.late.is_some() { 10 } else { 6 };
        let end = if one.answer == 0 { tip + side * 6 } else { tip };
        let _ = write!(
            out,
            "<path class=\"{} arrive\" d=\"M{lane} -{CORNER}Q{lane} 0 {} 0H{end}\" stroke=\"{colour}\"/>",
            line_class(arrow, one),
            lane - side * CORNER
        );
        if one.answer == 0 {
            arrow_head(out, tip, side, &colour);
        }
    }

    /// The part of an arrow between the row of its event and that of its delivery.
    fn trunk(&self, out: &mut String, arrow: &Arrow) {
        let (from, to) = (&self.layout.rows[arrow.from], &self.layout.rows[arrow.to]);
        let one = &self.trace[arrow.to];
        let Some(lane) = from.lane else { return };
        let _ = write!(
            out,
            "<line class=\"{} trunk\" data-from=\"{}\" data-to=\"{}\" x1=\"{lane}\" y1=\"{}\" x2=\"{lane}\" y2=\"{}\" \
             stroke=\"{}\"/>",
            line_class(arrow, one),
            arrow.from,
            arrow.to,
            from.y + LEAVE + CORNER,
            to.y - CORNER,
            self.colour(one.round())
        );
    }

    fn colour(&self, round: Option<Round>) -> String {
        round.map_or("#111".to_string(), |round| self.colours.of(round))
    }
}

/// The opening tag of a picture; the text behind says more attributes.
fn root(width: i32, height: i32, more: &str) -> String {
    format!(
        "<svg xmlns=\"http://www.w3.org/2000/svg\" class=\"timeline\" width=\"{width}\" height=\"{height}\" \
         viewBox=\"0 0 {width} {height}\"{more}>\n"
    )
}

fn text(out: &mut String, class: &str, x: i32, y: i32, words: &str) {
    coloured(out, class, x, y, "", words);
}

fn coloured(out: &mut String, class: &str, x: i32, y: i32, colour: &str, words: &str) {
    let class = if class.is_empty() { String::new() } else { format!(" class=\"{class}\"") };
    let fill = if colour.is_empty() { String::new() } else { format!(" fill=\"{colour}\"") };
    let _ = write!(out, "<text{class} x=\"{x}\" y=\"{y}\"{fill}>{words}</text>");
}

/// Words in a box whose right edge is near `end`.
fn badge(out: &mut String, class: &str, words_class: &str, end: i32, middle: i32, words: &str) {
    let width = width_of(words) + 8;
    let (left, top) = (end - width, middle - 7);
    let _ = write!(out, "<rect class=\"{class}\" x=\"{left}\" y=\"{top}\" width=\"{width}\" height=\"13\" rx=\"2\"/>");
    text(out, &format!("end{words_class}"), end - 4, middle + 3, words);
}

/// A dashed line is of a delivery that was refused, a thin one of one to a member that got the message before.
fn line_class(arrow: &Arrow, one: &Happened) -> String {
    let refused = if one.answer == 0 { "" } else { " refused" };
    let again = if arrow.again { " again" } else { "" };
    format!("line{refused}{again}")
}

/// The tip is at `x`; the line comes from this side.
fn arrow_head(out: &mut String, x: i32, side: i32, colour: &str) {
    let _ = write!(out, "<path class=\"tip\" d=\"M{x} 0l{} -4v8z\" fill=\"{colour}\"/>", 8 * side);
}

/// The event itself: a square for a start, else a disc; a circle with a cross where it is refused; a ring around a late
/// decision.
fn dot(out: &mut String, x: i32, one: &Happened) {
    if one.late.is_some() {
        let _ = write!(out, "<circle class=\"frame\" cx=\"{x}\" cy=\"0\" r=\"8\"/>");
    }
    let _ = match (one.answer, one.event) {
        (0, Event::Start { .. }) => {
            write!(out, "<rect class=\"dot\" x=\"{}\" y=\"-4\" width=\"8\" height=\"8\"/>", x - 4)
        }
        (0, _) => write!(out, "<circle class=\"dot\" cx=\"{x}\" cy=\"0\" r=\"4\"/>"),
        _ => write!(
            out,
            "<circle class=\"cross\" cx=\"{x}\" cy=\"0\" r=\"5\"/><path class=\"cross\" d=\"M{} -3l6 6m0 -6l-6 6\"/>",
            x - 3
        ),
    };
}

/// What the shapes mean, in one line, and its width.
fn key() -> (String, i32) {
    let line = |class: &str, end: &str| format!("<path class=\"line{class}\" d=\"M0 0H20\" stroke=\"#111\"/>{end}");
    let tip = "<path class=\"tip\" d=\"M27 0l-8 -4v8z\" fill=\"#111\"/>";
    let cross =
        "<circle class=\"cross\" cx=\"24\" cy=\"0\" r=\"5\"/><path class=\"cross\" d=\"M21 -3l6 6m0 -6l-6 6\"/>";
    let parts = [
        ("<rect class=\"dot\" x=\"19\" y=\"-4\" width=\"8\" height=\"8\"/>".to_string(), "start"),
        (line("", tip), "delivered"),
        (line(" again", tip), "delivered again"),
        (line(" refused", cross), "refused, with its number"),
        (
            "<path class=\"stub\" d=\"M8 0H26\" stroke=\"#111\"/><path class=\"bar\" d=\"M27 -4v8\" stroke=\"#111\"/>"
                .to_string(),
            "never delivered",
        ),
    ];
    let (mut out, mut x) = (String::new(), 0);
    for (shape, words) in parts {
        let _ = writeln!(out, "<g transform=\"translate({x},14)\">{shape}<text x=\"33\" y=\"4\">{words}</text></g>");
        x += 33 + width_of(words) + 16;
    }
    (out, x)
}
