//! The network as a drawing: plain SVG, the pump at the left, each section a pipe from the end of the one before it.
//!
//! A section's first child goes straight on; the others leave downward to rows of their own, so that no two pipes share a
//! row and a column, and no text meets another.

mod layout;
mod svg;

use crate::calls::{Flow, Rating};
use crate::kinds;
use crate::pipes::{Pipe, UNDER_FIRST_ROW};
use crate::record::Record;
use crate::service::{self, TOTAL};
use crate::taps;
use layout::{COLUMN, LEFT, LINE, Place, TOP};
use std::collections::BTreeSet;
use svg::Svg;

/// Half of the turn that a pipe takes below its parent's end, so that text beside the end has room.
const STUB: i64 = 14;
/// The colour of the dictating path, which is also drawn wider and named in words, so that it shows in print.
const DICTATING: &str = "#b3261e";
const PIPE: &str = "#31587a";
const SHORT: &str = "#b3261e";
const FAINT: &str = "#5f6b76";
const INK: &str = "#1c2329";

/// What stands above a drawing beside the heads.
pub struct Totals<'a> {
    /// The house's design flow in ml/s.
    pub duty: u32,
    /// The kinds of which one tap sets it; none where the average flow stands.
    pub taps: &'a [u8],
    pub flow: &'a Flow,
    /// In tenths of the price unit.
    pub cost: u64,
}

/// The drawing of a rated house.
pub fn draw(record: &Record, pipes: &[Pipe], rating: &Rating, totals: &Totals) -> String {
    let warning = if missing(record, rating) > 0 { ": TOO LITTLE HEAD" } else { "" };
    let texts: Vec<Texts> = pipes.iter().map(|pipe| Texts::of(pipe, Some(rating))).collect();
    let (mut svg, places) = sheet(record, pipes, &texts, totals.taps, warning);
    heading(&mut svg, record, rating, totals);
    pump(&mut svg, record, &format!("head {} cm", rating.pump));
    network(&mut svg, pipes, &places, &texts);
    svg.finish()
}

/// The drawing of a house in which no size serves some section, whose size is 0: flows and velocities, and no heads. One tap
/// of the kinds in `taps` sets the house's design flow `duty`.
pub fn sketch(record: &Record, pipes: &[Pipe], duty: u32, taps: &[u8]) -> String {
    let texts: Vec<Texts> = pipes.iter().map(|pipe| Texts::of(pipe, None)).collect();
    let (mut svg, places) = sheet(record, pipes, &texts, taps, ": NO SIZE SERVES");
    let unserved: Vec<String> =
        pipes.iter().filter(|pipe| pipe.size == 0).map(|pipe| pipe.number.to_string()).collect();
    let more = if unserved.len() > NAMED { format!(" and {} more", unserved.len() - NAMED) } else { String::new() };
    let named = unserved[..unserved.len().min(NAMED)].join(", ");
    svg.text(20, 28, 15, SHORT, "bold", &format!("NO SIZE SERVES section {named}{more}"));
    let limit = format!("velocity limit {} mm/s; the other pipes have the size of their least loss", record.limit);
    svg.text(20, 48, 12, FAINT, "normal", &limit);
    let (set, duty) = (line(record, " for "), of_house(duty, taps));
    let set = format!("pump set{set}: {duty}; without a size for each section there are no heads");
    svg.text(20, 65, 12, FAINT, "normal", &set);
    pump(&mut svg, record, "head unknown");
    network(&mut svg, pipes, &places, &texts);
    svg.finish()
}

/// So many sections are named above a drawing.
const NAMED: usize = 9;

/// A sheet with room for the pipes and their texts, and the pipes' places on it; what the marks mean stands at its foot.
fn sheet(record: &Record, pipes: &[Pipe], texts: &[Texts], taps: &[u8], warning: &str) -> (Svg, Vec<Place>) {
    let row = layout::row(1 + texts.iter().map(|own| own.notes.len()).max().unwrap_or(0));
    let places = layout::places(pipes, row);
    let (right, height) = layout::extent(&places, row);
    let legend = legend(pipes, taps);
    // Room for the heading over a small house, and for the legend below it.
    let least = if legend.is_empty() { 720 } else { 1_020 } + if record.stated_service().is_some() { LINED } else { 0 };
    let house = if taps.is_empty() { String::new() } else { format!("; design flow: {}", taps::words(taps)) };
    let title = format!("House network of {} sections{}{warning}{house}", pipes.len(), line(record, ", "));
    let mut svg = Svg::new((right + 40).max(least), height + FOOT * legend.len() as i64, &title);
    for (line, words) in (1..).zip(&legend) {
        svg.text(20, height + FOOT * line - 8, 12, FAINT, "normal", words);
    }
    (svg, places)
}

/// The width that the name of a line takes in the heading.
const LINED: i64 = 200;

/// The height of a line at the foot of the sheet.
const FOOT: i64 = 18;

/// What the marks mean, and the kinds that they have by number; nothing where there is no mark.
fn legend(pipes: &[Pipe], taps: &[u8]) -> Vec<String> {
    let marks: Vec<&[u8]> = pipes.iter().map(|pipe| pipe.taps.as_slice()).chain([taps]).collect();
    let marked = marks.iter().any(|kinds| !kinds.is_empty());
    let numbered: BTreeSet<u8> = marks.into_iter().filter(|kinds| !fit(kinds)).flatten().copied().collect();
    let named: Vec<String> = numbered.into_iter().map(|kind| format!("{kind} {}", kinds::name(kind))).collect();
    let mut lines = Vec::new();
    lines.extend(marked.then(|| taps::LEGEND.to_string()));
    lines.extend((!named.is_empty()).then(|| format!("kinds by number: {}", named.join(", "))));
    lines.extend(pipes.iter().any(Pipe::is_under_first_row).then(|| UNDER_FIRST_ROW.to_string()));
    lines
}

/// So many letters fit between the ends of a pipe, at 0.55 of their size each.
const FITTING: usize = 37;

/// Whether the names of a tap's kinds fit into a column.
fn fit(taps: &[u8]) -> bool {
    taps::words(taps).chars().count() <= FITTING
}

/// The kinds of which one tap sets a flow, in a column's width: where their names do not fit, their numbers.
fn mark(taps: &[u8]) -> Option<String> {
    match taps {
        [] => None,
        kinds if fit(kinds) => Some(taps::words(kinds)),
        kinds => Some(taps::numbers(kinds)),
    }
}

/// What the set serves, behind these words; nothing where the record has no service.
fn line(record: &Record, behind: &str) -> String {
    match record.stated_service() {
        None => String::new(),
        Some(TOTAL) => format!("{behind}all water"),
        Some(line) => format!("{behind}{}", service::words(line)),
    }
}

/// The house's design flow, with its mark.
fn of_house(duty: u32, taps: &[u8]) -> String {
    mark(taps).map_or(format!("{duty} ml/s"), |tap| format!("{duty} ml/s ({tap})"))
}

/// How many cm the delivered head lacks of the required one; none, or fewer than none, where it is enough.
fn missing(record: &Record, rating: &Rating) -> i64 {
    i64::from(rating.required) - i64::from(record.delivered)
}

/// Four lines above the drawing, first what the pump set has to deliver, and a fifth where the head is too little: an end
/// marked SHORT may lie far from here.
fn heading(svg: &mut Svg, record: &Record, rating: &Rating, totals: &Totals) {
    let (required, pump, guaranteed) = (rating.required, rating.pump, record.guaranteed);
    let duty = of_house(totals.duty, totals.taps);
    let set = line(record, " for ");
    let set = format!("pump set{set}: {duty} at {pump} cm over the guaranteed {guaranteed} cm");
    svg.text(20, 22, 15, INK, "bold", &set);
    let Flow { hour, day, .. } = totals.flow;
    let house = format!("greatest hour {hour} l, greatest day {day} l; required head {required} cm");
    svg.text(20, 40, 12, FAINT, "normal", &house);
    let bought = format!("the pipes cost {}.{}", totals.cost / 10, totals.cost % 10);
    let path = format!("dictating path, red and wide: pump to section {}; {bought}", rating.dictating);
    svg.text(20, 55, 12, FAINT, "normal", &path);
    let delivered = record.delivered;
    let left = format!("left: head left at an end when {delivered} cm are delivered; needs: its free head");
    svg.text(20, 70, 12, FAINT, "normal", &left);
    let missing = missing(record, rating);
    if missing > 0 {
        let warning = format!("TOO LITTLE HEAD: {delivered} cm are delivered, {missing} cm are missing");
        svg.text(20, 87, 13, SHORT, "bold", &warning);
    }
}

/// The pump: a circle with its arrow, and the heads beside it.
fn pump(svg: &mut Svg, record: &Record, head: &str) {
    let (x, y) = (LEFT - 56, TOP);
    svg.circle(x, y, 18, "white", INK, 2);
    svg.path(&format!("M {} {} L {} {} L {} {} Z", x - 8, y - 11, x + 15, y, x - 8, y + 11), INK, INK, 1);
    svg.line(x + 18, y, LEFT, y, INK, 4);
    svg.middle(x, y + 36, 12, INK, "bold", "pump");
    svg.middle(x, y + 52, 11, FAINT, "normal", head);
    svg.middle(x, y - 26, 11, FAINT, "normal", &format!("meter {} cm", record.meter));
}

/// All pipes with their texts.
fn network(svg: &mut Svg, pipes: &[Pipe], places: &[Place], texts: &[Texts]) {
    risers(svg, pipes, places);
    for ((pipe, place), texts) in pipes.iter().zip(places).zip(texts) {
        section(svg, pipe, place, texts);
    }
}

/// The uprights of all sections. Branches of one pipe leave along the same one; the dictating one is drawn last, over the
/// others.
fn risers(svg: &mut Svg, pipes: &[Pipe], places: &[Place]) {
    for dictating in [false, true] {
        for (pipe, place) in pipes.iter().zip(places).filter(|(pipe, _)| pipe.dictating == dictating) {
            riser(svg, pipe, place, places);
        }
    }
}

/// The upright line from the parent's end down to this section's row, where it is not the parent's own.
fn riser(svg: &mut Svg, pipe: &Pipe, place: &Place, places: &[Place]) {
    let from = match usize::from(pipe.section.parent) {
        0 => TOP,
        parent => places.get(parent - 1).map_or(TOP, |above| above.y),
    };
    if from != place.y {
        let (colour, width) = stroke(pipe);
        svg.line(place.x, from, place.x, place.y, colour, width);
    }
}

fn stroke(pipe: &Pipe) -> (&'static str, i64) {
    let wide = 2 + i64::from(pipe.size.min(4));
    if pipe.dictating { (DICTATING, wide + 2) } else { (PIPE, wide) }
}

/// A line of text below a pipe: its colour, its weight, and what it says.
type Note = (&'static str, &'static str, String);

/// What is said of a section beside its figures.
struct Texts {
    /// What a viewer shows when the pointer rests on it.
    title: String,
    /// Below flow and velocity.
    notes: Vec<Note>,
}

impl Texts {
    /// Without a rating there are no heads. By the flow stand the tap that sets it and the first row that it is under.
    fn of(pipe: &Pipe, rating: Option<&Rating>) -> Texts {
        let marks = mark(&pipe.taps).into_iter().chain(pipe.first_row_mark());
        let mut notes: Vec<Note> = marks.map(|words| (INK, "normal", words)).collect();
        notes.extend(rating.map_or(Vec::new(), |rating| rated(pipe, pipe.number == rating.dictating)));
        Texts { title: title(pipe, rating.is_some()), notes }
    }
}

/// A pipe with its texts: above it number, size and length; below it flow and velocity, and the notes.
fn section(svg: &mut Svg, pipe: &Pipe, place: &Place, texts: &Texts) {
    let Place { x, y } = *place;
    let end = x + COLUMN;
    let (colour, width) = stroke(pipe);
    svg.open(&format!("section-{}", pipe.number), &texts.title);
    svg.line(x, y, end, y, colour, width);
    svg.circle(end, y, 5, "white", colour, 2);
    let at = x + STUB;
    svg.text(at, y - 9, 12, INK, "bold", &pipe.number.to_string());
    let length = format!("{}.{} m", pipe.section.length / 10, pipe.section.length % 10);
    if pipe.size == 0 {
        svg.text(at + 24, y - 9, 11, SHORT, "bold", &format!("NO SIZE  {length}"));
        svg.text(at, y + 18, 11, INK, "normal", &format!("{} ml/s", pipe.flow));
    } else {
        svg.text(at + 24, y - 9, 11, INK, "normal", &format!("{} mm (size {})  {length}", pipe.bore, pipe.size));
        svg.text(at, y + 18, 11, INK, "normal", &format!("{} ml/s  {} mm/s", pipe.flow, pipe.velocity));
    }
    for (line, (colour, weight, words)) in (1..).zip(&texts.notes) {
        svg.text(at, y + 18 + LINE * line, 11, colour, weight, words);
    }
    svg.close();
}

/// What the rating says of a section: its loss, and the head left at its end.
fn rated(pipe: &Pipe, dictates: bool) -> Vec<Note> {
    let (colour, left) = ending(pipe);
    let mut notes = vec![(INK, "normal", format!("loss {} cm", pipe.loss)), (colour, "normal", left)];
    if dictates {
        notes.push((DICTATING, "bold", "dictating end".to_string()));
    }
    notes
}

/// The head left at the end against the free head, and its colour.
fn ending(pipe: &Pipe) -> (&'static str, String) {
    let (left, free) = (pipe.left, pipe.section.free);
    match (left < i64::from(free), pipe.section.kind) {
        (true, _) => (SHORT, format!("SHORT: left {left}, needs {free} cm")),
        (false, 0) => (FAINT, format!("left {left} cm")),
        (false, _) => (FAINT, format!("left {left}, needs {free} cm")),
    }
}

/// What a viewer shows when the pointer rests on the section.
fn title(pipe: &Pipe, rated: bool) -> String {
    let section = &pipe.section;
    let from = if section.parent == 0 { "the pump".to_string() } else { format!("section {}", section.parent) };
    let ends = match section.kind {
        0 => "junction".to_string(),
        kind => format!("{} fixtures of kind {}, free head {} cm", section.fixtures, kinds::name(kind), section.free),
    };
    let left = if rated { format!(", head left {} cm", pipe.left) } else { String::new() };
    let flow = match taps::words(&pipe.taps).as_str() {
        "" => String::new(),
        tap => format!(", flow that of {tap}, which draws more than the formula gives for all that is served"),
    };
    format!("Section {} from {from}: {ends}, elevation {} cm{left}{flow}", pipe.number, section.elevation)
}
