// The text of a whole image: what it is, its broken rules, then every reachable node with its
// range, its lifted prefix and its entries with their whole paths, and the free nodes.
// It relies on a survey only.

use crate::rules;
use crate::spell::{self, count};
use crate::survey::{range_words, whole, Finding, SeenNode, Survey};
use second::image::{Entry, RawMessage};
use second::limits::{NODE, NODES_MOST};
use std::fmt::Write;

pub fn report(name: &str, survey: &Survey<'_>) -> String {
    let mut out = summary(name, survey);
    out.push_str(&findings(survey));
    if survey.n == 0 {
        return out;
    }
    header(survey, &mut out);
    for node in &survey.nodes {
        write_node(survey, node, &mut out);
    }
    let free = survey.free();
    let listed = match free.is_empty() {
        true => "none".into(),
        false => format!("{} ({})", spell::runs(&free), free.len()),
    };
    let _ = writeln!(out, "\nfree nodes: {listed}");
    out
}

/// One line: sound or not, and what there is.
pub fn summary(name: &str, survey: &Survey<'_>) -> String {
    let verdict = match survey.findings.len() {
        0 => "sound".to_string(),
        1 => "UNSOUND, 1 finding".into(),
        more => format!("UNSOUND, {more} findings"),
    };
    format!("{name}: {verdict}; {}\n", facts(survey))
}

/// What an image holds, in one phrase.
pub fn facts(survey: &Survey<'_>) -> String {
    if survey.n == 0 {
        return format!("{} are no store", size(survey.image.len()));
    }
    format!(
        "{} nodes: node 0, {} reachable, {} free; {}, {}, {}",
        survey.n,
        survey.nodes.len(),
        survey.n - 1 - survey.nodes.len(),
        count(survey.header.levels.into(), "level", "levels"),
        count(survey.header.live.into(), "live path", "live paths"),
        count(survey.waiting(), "message waiting", "messages waiting"),
    )
}

/// A file's size; of one that is too long for a store no more is read than shows that.
pub fn size(length: usize) -> String {
    let most = NODES_MOST * NODE;
    match length > most {
        true => format!("more than {most} bytes"),
        false => count(length, "byte", "bytes"),
    }
}

/// The broken rules in the paper's order; empty for a sound image.
pub fn findings(survey: &Survey<'_>) -> String {
    let mut out = String::new();
    for (i, finding) in survey.findings.iter().enumerate() {
        let place = finding_place(finding);
        let _ = writeln!(
            out,
            "{}. {}: {place}{}",
            i + 1,
            finding.rule.name(),
            finding.detail
        );
        let _ = writeln!(out, "   the paper: {}", rules::words(finding.rule));
    }
    out
}

/// The node of a finding; a store of the wrong size has no node to name.
pub fn finding_place(finding: &Finding) -> String {
    match finding.rule {
        second::sound::Rule::StoreSize => String::new(),
        _ => format!("node {}: ", finding.node),
    }
}

fn header(survey: &Survey<'_>, out: &mut String) {
    let h = &survey.header;
    let (live, told) = (h.live, "\nnode 0: the header");
    let _ = writeln!(
        out,
        "{told}\n  {} nodes, root {}, levels {}, live paths {live}",
        h.n, h.root, h.levels
    );
    write_findings(survey, 0, out);
}

fn write_findings(survey: &Survey<'_>, number: u16, out: &mut String) {
    for finding in survey.findings_in(number) {
        let _ = writeln!(out, "  ! {}: {}", finding.rule.name(), finding.detail);
    }
}

fn write_node(survey: &Survey<'_>, node: &SeenNode<'_>, out: &mut String) {
    let _ = writeln!(out, "\nnode {}: {}", node.number, place_words(node));
    write_findings(survey, node.number, out);
    let owns = match node.range_known {
        true => range_words(node),
        false => format!("{} (a pivot above is broken)", range_words(node)),
    };
    let _ = writeln!(out, "  owns   {owns}");
    let _ = writeln!(out, "  lifts  {}", lifted_words(node));
    let rows: Vec<[String; 3]> = (0..node.entries.len()).map(|at| row(node, at)).collect();
    let width = |column: usize| {
        rows.iter()
            .map(|r| r[column].chars().count())
            .max()
            .unwrap_or(0)
    };
    let (name, path) = (width(0), width(1).min(48));
    let newest = node.messages().last().map(|(at, _)| at);
    let oldest = node.messages().next().map(|(at, _)| at);
    for (at, row) in rows.iter().enumerate() {
        let age = match (oldest == Some(at), newest == Some(at)) {
            (true, true) | (false, false) => "",
            (true, false) => "  (oldest)",
            (false, true) => "  (newest)",
        };
        let line = format!("  {:name$}  {:path$}  {}{age}", row[0], row[1], row[2]);
        let _ = writeln!(out, "{}", line.trim_end());
    }
    if rows.is_empty() {
        let _ = writeln!(out, "  no entries");
    }
}

/// Level, kind and place in the tree.
pub fn place_words(node: &SeenNode<'_>) -> String {
    let kind = match node.is_leaf() {
        true => "leaf",
        false => "interior",
    };
    let place = match node.origin {
        Some(origin) => format!("under node {}", origin.parent),
        None => "the root".into(),
    };
    format!("level {}, {kind}, {place}", node.level)
}

fn lifted_words(node: &SeenNode<'_>) -> String {
    match node.lifted() {
        [] => "nothing".into(),
        lifted => spell::string(lifted),
    }
}

/// An entry's name, its whole path, and the rest.
fn row(node: &SeenNode<'_>, at: usize) -> [String; 3] {
    let (path, rest) = entry_words(node, at);
    [node.entry_name(at), path, rest]
}

/// An entry's whole path, and what it gives there.
pub fn entry_words(node: &SeenNode<'_>, at: usize) -> (String, String) {
    let lifted = node.lifted();
    let split = |suffix| spell::split(lifted, suffix);
    match node.entries[at] {
        Entry::Pair { suffix, value } => (split(suffix), format!("= {}", spell::value(value))),
        Entry::Child { number, suffix } => (
            spell::split_pivot(lifted, suffix),
            format!("-> node {number}"),
        ),
        Entry::Message(RawMessage::Put { suffix, value }) => (
            format!("put   {}", split(suffix)),
            format!("= {}", spell::value(value)),
        ),
        Entry::Message(RawMessage::Drop { suffix }) => {
            (format!("drop  {}", split(suffix)), String::new())
        }
        Entry::Message(RawMessage::Clear { suffix: [] }) if whole(node) == Some(&[]) => {
            (format!("clear {}", spell::EMPTY_PATH), "everything".into())
        }
        Entry::Message(RawMessage::Clear { suffix: [] }) => {
            ("clear all that this node owns".into(), String::new())
        }
        Entry::Message(RawMessage::Clear { suffix }) => {
            (format!("clear {}", split(suffix)), "and all below".into())
        }
    }
}
