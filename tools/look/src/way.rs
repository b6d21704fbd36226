// The text of one lookup: the answer, where its bytes stand, the way with what each message on
// it says, and what lies below the path. It relies on a trace, on `below` for the records and on
// `gap` for what a damaged image does not tell; the page's script says the same by the same rules.

use crate::below::{self, Record};
use crate::gap;
use crate::report::{self, entry_words};
use crate::spell::{self, count};
use crate::survey::{SeenNode, Survey};
use crate::trace::{Ending, Step, Trace, Word};
use std::fmt::Write;

/// The most paths below the one asked for that are listed.
const LISTED: usize = 20;

/// A path that was asked for: its lookup, and the records below it, itself left out.
pub struct Asked {
    pub trace: Trace,
    pub below: Vec<Record>,
    /// Why the path, or what is below it, cannot be told whole.
    pub gap: Option<String>,
}

impl Asked {
    pub fn of(survey: &Survey<'_>, path: &[u8]) -> Asked {
        let trace = Trace::take(survey, path);
        Asked {
            below: below::records(survey, path),
            gap: gap::on_way(survey, &trace).or_else(|| gap::below(survey, path)),
            trace,
        }
    }

    /// Whether it has a value, or records below it as a closure has.
    pub fn found(&self) -> bool {
        self.trace.value.is_some() || !self.below.is_empty()
    }
}

pub fn tell(name: &str, survey: &Survey<'_>, asked: &Asked) -> String {
    let mut out = report::summary(name, survey) + &report::findings(survey) + &lead(survey);
    if survey.n == 0 {
        return out;
    }
    let _ = writeln!(out, "\n{}", verdict(survey, asked));
    pieces(survey, asked, &mut out);
    if !asked.trace.steps.is_empty() {
        let _ = writeln!(out, "\nthe way:");
    }
    for (i, step) in asked.trace.steps.iter().enumerate() {
        write_step(survey, &asked.trace, i, step, &mut out);
    }
    list_below(survey, &asked.below, &mut out);
    out
}

/// The line before an answer that no call gives; empty for a sound image.
fn lead(survey: &Survey<'_>) -> String {
    match survey.refusal() {
        None => String::new(),
        Some(refusal) if survey.n == 0 => format!("{refusal}.\n"),
        Some(refusal) => format!("{refusal}. What its bytes would say:\n"),
    }
}

/// The answer in one line, after what an image that is no sound one says first.
pub fn answer(survey: &Survey<'_>, asked: &Asked) -> String {
    match survey.n {
        0 => lead(survey).trim_end().into(),
        _ => lead(survey).replace('\n', " ") + &verdict(survey, asked),
    }
}

/// The value, the number of records below, its absence, or why none can be told; and what decides.
fn verdict(survey: &Survey<'_>, asked: &Asked) -> String {
    let path = spell::asked(&asked.trace.path);
    let is_whole = asked.trace.path.is_empty();
    let records = count(asked.below.len(), "record", "records");
    let is_decided = asked.trace.decided.is_some();
    let told = match (&asked.trace.value, asked.below.len(), &asked.gap) {
        (Some(value), _, _) => format!("{path} has the value {}.", spell::value(value)),
        (None, 0, None) if is_whole => {
            format!("{path} has no record below it: the store is empty.")
        }
        (None, _, None) if is_whole => format!("{path} has {records} below it: the whole store."),
        (None, 0, None) => format!("{path} is absent."),
        (None, _, None) => format!("{path} has {records} below it, and no value of its own."),
        (None, 0, Some(gap)) if is_decided => {
            format!("{path} has no value of its own; {gap}, so what is below it cannot be told.")
        }
        (None, 0, Some(gap)) => format!("{path}: {gap}, so this cannot be told."),
        (None, _, Some(gap)) => {
            let own = if is_decided {
                " no value of its own, and"
            } else {
                ""
            };
            let more = "so whether there is more cannot be told.";
            format!("{path} has{own} at least {records} below it; {gap}, {more}")
        }
    };
    match is_decided && (asked.trace.value.is_some() || asked.gap.is_none()) {
        true => format!("{told} {}", decision(survey, &asked.trace)),
        false => told,
    }
}

fn decision(survey: &Survey<'_>, trace: &Trace) -> String {
    if let Some((node, entry)) = trace.decider(survey) {
        let (path, rest) = entry_words(node, entry);
        let text = format!("{path} {rest}");
        let name = node.entry_name(entry);
        return format!(
            "It is decided by {name} of node {}: {}",
            node.number,
            tidy(&text)
        );
    }
    match trace.decided.map(|at| &trace.steps[at]) {
        Some(step) => format!(
            "It is decided by node {}, the leaf that owns it: no pair there has this path.",
            step.number
        ),
        None => String::new(),
    }
}

/// One space between words, as in running text.
fn tidy(text: &str) -> String {
    text.split_whitespace().collect::<Vec<_>>().join(" ")
}

/// The entries in which the bytes of a path stand; of a path that only has records below it, what
/// is true of those, since their nodes need not lift the same.
fn pieces(survey: &Survey<'_>, asked: &Asked, out: &mut String) {
    let trace = &asked.trace;
    let shares = below::shares(survey, &trace.path, &asked.below);
    if trace.value.is_none() && !shares.is_empty() {
        out.push_str("\nwhere its bytes stand (lifted ones in the pivots above the node):\n");
        for share in shares {
            let _ = writeln!(out, "  {}", share.words(&trace.path));
        }
    } else if trace.decider(survey).is_some() {
        out.push_str("\nwhere its bytes stand:\n");
        entry_pieces(survey, trace, out);
    }
}

fn entry_pieces(survey: &Survey<'_>, trace: &Trace, out: &mut String) {
    for piece in &trace.pieces {
        let node = survey.node(piece.node);
        let name = node.map_or(String::new(), |n| n.entry_name(piece.entry));
        let bytes = match piece.bytes.is_empty() {
            true => "nothing more".into(),
            false => spell::string(&piece.bytes),
        };
        let _ = writeln!(out, "  {bytes:16} in node {}, {name}", piece.node);
    }
}

fn write_step(survey: &Survey<'_>, trace: &Trace, i: usize, step: &Step, out: &mut String) {
    let Some(node) = survey.node(step.number) else {
        return;
    };
    let overruled = trace.decided.is_some_and(|at| i > at);
    let asked = match overruled {
        true => "  (not asked any more)",
        false => "",
    };
    let rest = trace.path.strip_prefix(node.lifted()).unwrap_or(&[]);
    let path = spell::split(node.lifted(), rest);
    let _ = writeln!(
        out,
        "{}. node {}, {}: {path}{asked}",
        i + 1,
        node.number,
        report::place_words(node)
    );
    for (at, word) in &step.heard {
        let (path, rest) = entry_words(node, *at);
        let said = said(node, step, *at, *word, overruled);
        let shown = tidy(&format!("{path} {rest}"));
        let _ = writeln!(out, "   {}  {shown:32}  {said}", node.entry_name(*at));
    }
    let _ = writeln!(out, "   {}", ending(survey, node, step, overruled));
}

fn said(node: &SeenNode<'_>, step: &Step, at: usize, word: Word, overruled: bool) -> String {
    let told = match word {
        Word::Nothing => return "says nothing about it".into(),
        Word::Value => "gives it this value",
        Word::Absent => "makes it absent",
    };
    match step.ending {
        Ending::Message(newest) if newest != at => {
            format!("{told}, but {} is newer", node.entry_name(newest))
        }
        _ if overruled => format!("{told}, but a node above has decided"),
        Ending::Unread(_) => format!("{told}, unless a newer one was not read"),
        _ => format!("{told}: the newest that speaks of it, DECIDES"),
    }
}

fn ending(survey: &Survey<'_>, node: &SeenNode<'_>, step: &Step, overruled: bool) -> String {
    let decides = match overruled {
        true => "",
        false => ": DECIDES",
    };
    let down = |entry: usize| {
        let (pivot, leads) = entry_words(node, entry);
        format!("{} owns it: {} {leads}", node.entry_name(entry), pivot)
    };
    match step.ending {
        Ending::Message(entry) if overruled => format!("{} speaks of it", node.entry_name(entry)),
        Ending::Message(_) => "the lookup ends here".into(),
        Ending::Pair(entry) => {
            let (path, rest) = entry_words(node, entry);
            format!(
                "{} is this path: {path} {rest}{decides}",
                node.entry_name(entry)
            )
        }
        Ending::NoPair => format!("no pair has this path{decides}"),
        Ending::Down(entry) if step.heard.is_empty() => {
            format!("no message waits here; {}", down(entry))
        }
        Ending::Down(entry) => format!("no message speaks of it; {}", down(entry)),
        Ending::Stopped => match survey.sound() {
            true => "the way ends".into(),
            false => "the way cannot be followed: the image is unsound here".into(),
        },
        Ending::Unread(entry) => format!("not read from entry {entry} on: the way ends"),
    }
}

fn list_below(survey: &Survey<'_>, records: &[Record], out: &mut String) {
    if records.is_empty() {
        return;
    }
    let told = count(records.len(), "record", "records");
    let _ = writeln!(out, "\nbelow it: {told}");
    for record in records.iter().take(LISTED) {
        let (path, number) = (spell::path(&record.path), record.node);
        let node = survey.node(number);
        let name = node.map_or(String::new(), |n| n.entry_name(record.entry));
        let _ = writeln!(out, "  {path:32} by {name} of node {number}");
    }
    if records.len() > LISTED {
        let _ = writeln!(out, "  and {} more", records.len() - LISTED);
    }
}
