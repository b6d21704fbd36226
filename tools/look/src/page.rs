// The page: one file without outside resources, for one image or for two side by side.
// It relies on `card` for the nodes and on `key`; its style and script stand beside this file.

use crate::arguments::Moved;
use crate::card::{badges, change_classes, escape, Drawing};
use crate::compare::{Comparison, NONE};
use crate::key::key;
use crate::moving::Moving;
use crate::report;
use crate::rules;
use crate::spell;
use crate::survey::Survey;
use std::collections::BTreeSet;
use std::fmt::Write;

/// How every page begins, which is how a file is known to be one.
pub const BEGINNING: &str = "<!DOCTYPE html>\n<html lang=en><head><meta charset=utf-8>\
    <meta name=viewport content=\"width=device-width, initial-scale=1\"><title>";

const STYLE: &str = include_str!("page.css");
const SCRIPT: &str = include_str!("page.js");

/// With more reachable nodes than this, or more entries in them, the cards begin closed.
const OPEN_NODES: usize = 40;
const OPEN_ENTRIES: usize = 200;
/// With more levels than this columns get too wide to be the first choice, as does a lone leaf.
const COLUMN_LEVELS: u16 = 4;

pub struct Side<'s, 'a> {
    pub name: &'s str,
    pub survey: &'s Survey<'a>,
}

/// What a page shows first: a path in its field, and the move along which paths are followed.
#[derive(Default)]
pub struct Opening<'o> {
    pub path: Option<&'o str>,
    pub moved: Option<&'o Moved>,
}

pub fn one(side: &Side<'_, '_>, path: Option<&str>) -> String {
    let drawing = drawing(side.survey, "a", None);
    let columns = (2..=COLUMN_LEVELS).contains(&side.survey.header.levels);
    let mut out = head(side.name, columns, 1);
    let opening = Opening { path, moved: None };
    bar(&mut out, &[side], &opening);
    let drawn = section(side, "a", "", &drawing);
    let _ = write!(out, "<main class=one>{}{drawn}</main>", key(&drawn, false));
    tail(&mut out);
    out
}

pub fn two(sides: &[Side<'_, '_>; 2], comparison: &Comparison, opening: &Opening<'_>) -> String {
    let [before, after] = sides;
    let mut out = head(&title(&[before, after]), false, 2);
    bar(&mut out, &[before, after], opening);
    let mut was = drawing(before.survey, "a", Some(comparison));
    was.fresh = Some(&comparison.fresh_before);
    was.other = Some((after.survey, "moves to"));
    let mut is = drawing(after.survey, "b", Some(comparison));
    is.fresh = Some(&comparison.fresh_after);
    is.other = Some((before.survey, "moved from"));
    let drawn = section(before, "a", "before", &was) + &section(after, "b", "after", &is);
    legend(&mut out, comparison);
    told(&mut out, sides, comparison, opening.moved);
    let key = key(&drawn, opening.moved.is_some());
    let _ = write!(out, "{key}<main class=two>{drawn}</main>");
    tail(&mut out);
    out
}

fn drawing<'d, 'a>(
    survey: &'d Survey<'a>,
    id: &'static str,
    comparison: Option<&'d Comparison>,
) -> Drawing<'d, 'a> {
    let entries: usize = survey.nodes.iter().map(|node| node.entries.len()).sum();
    Drawing {
        survey,
        id,
        comparison,
        other: None,
        fresh: None,
        compact: survey.nodes.len() > OPEN_NODES || entries > OPEN_ENTRIES,
        opened: opened(survey, comparison),
    }
}

/// The nodes above a changed or faulty one.
fn opened(survey: &Survey<'_>, comparison: Option<&Comparison>) -> BTreeSet<u16> {
    let mut opened = BTreeSet::new();
    let changed = comparison.iter().flat_map(|c| c.changes.keys());
    let faulty = survey.findings.iter().map(|f| &f.node);
    for number in changed.chain(faulty) {
        let mut next = survey.node(*number).and_then(|node| node.origin);
        while let Some(origin) = next {
            opened.insert(origin.parent);
            next = survey.node(origin.parent).and_then(|node| node.origin);
        }
    }
    opened
}

fn head(title: &str, columns: bool, sides: usize) -> String {
    let layout = match columns {
        true => "columns",
        false => "outline",
    };
    format!(
        "{BEGINNING}{} - splice log</title>\n<style>\n{STYLE}</style></head>\n\
         <body class=\"{layout} sides{sides}\">\n",
        escape(title)
    )
}

fn tail(out: &mut String) {
    let _ = write!(out, "\n<script>\n{SCRIPT}</script>\n</body></html>\n");
}

/// The present paths of sound images, to be offered in the field.
fn paths(sides: &[&Side<'_, '_>]) -> BTreeSet<Vec<u8>> {
    let mut paths = BTreeSet::new();
    for side in sides {
        if let Ok(sound) = second::sound::judge(side.survey.image) {
            paths.extend(sound.table.into_keys());
        }
    }
    paths
}

fn title(sides: &[&Side<'_, '_>]) -> String {
    let names: Vec<&str> = sides.iter().map(|side| side.name).collect();
    names.join(" and ")
}

/// The bar on top: the field for a path, the switches, and a place for the answer of each side.
fn bar(out: &mut String, sides: &[&Side<'_, '_>], opening: &Opening<'_>) {
    let (title, paths) = (escape(&title(sides)), paths(sides));
    let _ = write!(out, "<header class=bar><form id=form><h1>{title}</h1>");
    field(out, &paths, opening.path);
    switches(out, sides.len() == 2, opening.moved);
    out.push_str("</form><datalist id=paths>");
    for path in &paths {
        let _ = write!(out, "<option value=\"{}\">", escape(&spell::path(path)));
    }
    out.push_str("</datalist><div class=answers aria-live=polite>");
    let words = match sides.len() {
        1 => ["", ""],
        _ => ["before", "after"],
    };
    for (id, word) in ["a", "b"].iter().zip(words).take(sides.len()) {
        let id = format!("id=answer-{id} data-word=\"{word}\"");
        let _ = write!(out, "<div class=answer {id}></div>");
    }
    out.push_str("</div></header>\n");
}

/// The field for a path, with the one that the page opens at.
fn field(out: &mut String, paths: &BTreeSet<Vec<u8>>, path: Option<&str>) {
    let example = paths.first().map_or("r1/c7/t1".into(), |p| spell::path(p));
    let _ = write!(
        out,
        "<label class=field>Path <input id=path list=paths autocomplete=off spellcheck=false \
         value=\"{}\" placeholder=\"{}\" title=\"the key / comes here, Escape clears, Enter goes \
         to what decides\"></label>",
        escape(path.unwrap_or("")),
        escape(&example)
    );
}

/// The switches, each with its key.
fn switches(out: &mut String, changes: bool, moved: Option<&Moved>) {
    if let Some(Moved { from, to }) = moved {
        let (from, to) = (escape(from), escape(to));
        let _ = write!(
            out,
            "<label class=check title=\"before, the path as it is typed; after, its name since the \
             move\"><input type=checkbox id=follow checked data-from=\"{from}\" data-to=\"{to}\"> \
             follow <code>{from}</code> to <code>{to}</code></label>"
        );
    }
    out.push_str(
        "<label class=check><input type=checkbox id=only> only the way</label>\
         <button type=button id=layout title=\"columns or outline (l)\">Layout</button>\
         <button type=button id=all title=\"open or close every node (o)\">Open all</button>",
    );
    if changes {
        let title = "go to the next changed node (n)";
        let _ = write!(
            out,
            "<button type=button id=change title=\"{title}\">Next change</button>"
        );
    }
}

/// Which nodes differ, and how; a mark that no node has is left out.
fn legend(out: &mut String, comparison: &Comparison) {
    out.push_str("<dl class=legend>");
    let classes = ["changed", "new", "gone", "renamed"];
    for ((heading, numbers), class) in comparison.words().iter().zip(classes) {
        if numbers == NONE {
            continue;
        }
        let _ = write!(
            out,
            "<div class={class}><dt>{heading}</dt><dd>{numbers}</dd></div>"
        );
    }
    if comparison.changes.is_empty() {
        out.push_str("<div><dt>changed</dt><dd>no byte</dd></div>");
    }
    out.push_str("</dl>");
}

/// What became of the records that a move moved.
fn told(
    out: &mut String,
    [before, after]: &[Side<'_, '_>; 2],
    comparison: &Comparison,
    moved: Option<&Moved>,
) {
    let sides = [before.survey, after.survey];
    let moving = moved.and_then(|moved| Moving::of(sides, comparison, moved));
    if let Some(moving) = moving {
        let (records, remains) = (moving.records(), moving.remains().join(" "));
        let (records, remains) = (escape(&records), escape(&remains));
        let _ = write!(
            out,
            "<p class=told>{records}</p><p class=told>{remains}</p>"
        );
    }
}

fn section(side: &Side<'_, '_>, id: &str, word: &str, drawing: &Drawing<'_, '_>) -> String {
    let (survey, mut out) = (side.survey, String::new());
    let heading = match word {
        "" => String::new(),
        _ => format!("<h2><b>{word}</b> {}</h2>", escape(side.name)),
    };
    let _ = write!(
        out,
        "<section class=image id=image-{id} data-nodes={} data-refusal=\"{}\">{heading}<p class=facts>{}</p>",
        survey.n, survey.refusal().unwrap_or(""), escape(&report::facts(survey)),
    );
    findings(&mut out, survey, id);
    header_card(&mut out, drawing);
    out.push_str("<div class=tree>");
    if let Some(root) = survey.nodes.first() {
        drawing.branch(root, &mut out);
    }
    out.push_str("</div>");
    free(&mut out, drawing);
    out + "</section>\n"
}

fn findings(out: &mut String, survey: &Survey<'_>, id: &str) {
    let Some(refusal) = survey.refusal() else {
        return;
    };
    let _ = write!(out, "<div class=unsound><h3>{refusal}</h3><ol>");
    for finding in &survey.findings {
        let place = match survey.n {
            0 => "the store".into(),
            _ => format!("<a href=\"#{id}{0}\">node {0}</a>", finding.node),
        };
        let _ = write!(
            out,
            "<li><b>{}</b> in {place}: {} <span class=paper>The paper: {}</span></li>",
            finding.rule.name(),
            escape(&finding.detail),
            escape(rules::words(finding.rule)),
        );
    }
    out.push_str("</ol></div>");
}

fn header_card(out: &mut String, drawing: &Drawing<'_, '_>) {
    let (survey, id) = (drawing.survey, drawing.id);
    if survey.n == 0 {
        return;
    }
    let change = drawing
        .comparison
        .map_or(Default::default(), |c| c.of_node(0));
    let h = &survey.header;
    let _ = write!(
        out,
        "<article class=\"zero{}\" tabindex=-1 id={id}0><span class=name>Node 0</span> {} nodes · root \
         <a href=\"#{id}{}\">node {}</a> · levels {} · live paths {}{}",
        change_classes(change),
        h.n,
        h.root,
        h.root,
        h.levels,
        h.live,
        badges(change),
    );
    for finding in survey.findings_in(0) {
        let _ = write!(
            out,
            "<p class=fault><b>{}</b> {}</p>",
            finding.rule.name(),
            escape(&finding.detail)
        );
    }
    out.push_str("</article>");
}

/// The free nodes, and which of them the call wrote to all the same.
fn free(out: &mut String, drawing: &Drawing<'_, '_>) {
    let free = drawing.survey.free();
    if drawing.survey.n == 0 {
        return;
    }
    let listed = match free.is_empty() {
        true => "none".into(),
        false => format!(
            "{} <span class=facts>({})</span>",
            spell::runs(&free),
            free.len()
        ),
    };
    let is_changed = |number: &&u16| {
        drawing
            .comparison
            .is_some_and(|c| c.of_node(**number).changed)
    };
    let written: Vec<u16> = free.iter().filter(is_changed).copied().collect();
    let class = if written.is_empty() { "" } else { " changed" };
    let _ = write!(
        out,
        "<p class=\"free{class}\" tabindex=-1><span class=name>Free nodes</span> {listed}"
    );
    if !written.is_empty() {
        let _ = write!(
            out,
            " <span class=\"badge changed\" title=\"free here, and yet other bytes than in the other \
             image: the call wrote there\">bytes differ: {}</span>",
            spell::runs(&written)
        );
    }
    out.push_str("</p>");
}
