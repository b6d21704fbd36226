// One node as a card of the page, and the branch of all under it.
// The attributes are what the page's script reads: data-s is an entry's suffix in hexadecimal,
// data-l a node's lifted prefix, data-low and data-high its pivots, data-unread the first entry
// that was not read, counted from 1; data-lost stands on a child that leads to no node.

use crate::compare::{Change, Comparison};
use crate::spell::{self, count, Glyph};
use crate::survey::{whole, SeenNode, Survey};
use crate::trace::suffix_of;
use second::image::{Entry, RawMessage};
use second::sound::Rule;
use std::collections::BTreeSet;
use std::fmt::Write;

/// How one image is drawn.
pub struct Drawing<'d, 'a> {
    pub survey: &'d Survey<'a>,
    /// In front of every id, so that two images can stand on one page.
    pub id: &'static str,
    pub comparison: Option<&'d Comparison>,
    /// The other image, and how this one speaks of it: what a pivot was, or is now.
    pub other: Option<(&'d Survey<'a>, &'static str)>,
    /// The entries to mark as not in the other image.
    pub fresh: Option<&'d BTreeSet<(u16, usize)>>,
    /// With many nodes only the root and what changed begins open; a new leaf, which holds
    /// copies, does not.
    pub compact: bool,
    /// The nodes on the way to a changed one, which begin open in any case.
    pub opened: BTreeSet<u16>,
}

pub fn escape(text: &str) -> String {
    let mut out = String::with_capacity(text.len());
    for c in text.chars() {
        match c {
            '&' => out.push_str("&amp;"),
            '<' => out.push_str("&lt;"),
            '>' => out.push_str("&gt;"),
            '"' => out.push_str("&quot;"),
            '\'' => out.push_str("&#39;"),
            _ => out.push(c),
        }
    }
    out
}

/// Bytes as markup: separators faint, bytes of no path in hexadecimal boxes.
pub fn letters(bytes: &[u8]) -> String {
    let written = spell::glyphs(bytes).map(|glyph| match glyph {
        Glyph::Character(c) => escape(&c.to_string()),
        Glyph::Separator => "/".into(),
        Glyph::Hexadecimal(byte) => format!("<span class=x>{byte:02X}</span>"),
    });
    written.collect()
}

/// Lifted bytes in grey, then what is stored.
fn split(lifted: &[u8], stored: &str) -> String {
    let front = match lifted {
        [] => String::new(),
        _ => format!("<span class=l>{}</span>", letters(lifted)),
    };
    let rest = match stored {
        "" => "<span class=none>nothing more</span>".into(),
        _ => format!("<span class=s>{stored}</span>"),
    };
    format!("<span class=path>{front}{rest}</span>")
}

fn entry_path(lifted: &[u8], suffix: &[u8]) -> String {
    split(lifted, &letters(spell::shown_suffix(lifted, suffix)))
}

/// A pivot: the bytes that the child lifts of it are marked, since they are stored only here.
fn pivot(node: &SeenNode<'_>, suffix: &[u8], child: Option<&SeenNode<'_>>) -> String {
    let lifted = node.lifted();
    let more = child.map_or(0, |c| c.lifted().len().saturating_sub(lifted.len()));
    let (front, rest) = suffix.split_at(more.min(suffix.len()));
    let front = match front {
        [] => String::new(),
        _ => format!("<span class=f>{}</span>", letters(front)),
    };
    if lifted.is_empty() && suffix.is_empty() {
        return "<span class=path><span class=none>start</span></span>".into();
    }
    split(lifted, &(front + &letters(rest)))
}

fn value(bytes: &[u8]) -> String {
    match bytes {
        [] => "<span class=v><span class=none>empty</span></span>".into(),
        _ => format!("<span class=v>{}</span>", spell::value(bytes)),
    }
}

fn path_and_value(lifted: &[u8], suffix: &[u8], bytes: &[u8]) -> String {
    format!("{} {}", entry_path(lifted, suffix), value(bytes))
}

/// A message's kind, and its markup. A clear of all that a node owns is, in a node that owns every
/// path, a clear of the empty one.
fn message_words(node: &SeenNode<'_>, message: &RawMessage<'_>) -> (&'static str, String) {
    let lifted = node.lifted();
    match *message {
        RawMessage::Put { suffix, value } => ("put", path_and_value(lifted, suffix, value)),
        RawMessage::Drop { suffix } => ("drop", entry_path(lifted, suffix)),
        RawMessage::Clear { suffix: [] } if whole(node) == Some(&[]) => {
            let path = format!("<span class=path>{}</span>", spell::EMPTY_PATH);
            ("clear", format!("{path} <span class=all>everything</span>"))
        }
        RawMessage::Clear { suffix: [] } => {
            let all = "<span class=all>all that this node owns</span>";
            ("clear", all.into())
        }
        RawMessage::Clear { suffix } => {
            let path = entry_path(lifted, suffix);
            ("clear", format!("{path} <span class=all>and below</span>"))
        }
    }
}

impl Drawing<'_, '_> {
    /// The branch of a node: its card, and the branches of its children.
    pub fn branch(&self, node: &SeenNode<'_>, out: &mut String) {
        out.push_str("<div class=branch>");
        self.card(node, out);
        let children: Vec<&SeenNode<'_>> = node
            .children()
            .filter_map(|(at, _, _)| self.survey.child(node, at))
            .collect();
        if !children.is_empty() {
            let open = !self.compact || node.origin.is_none() || self.opened.contains(&node.number);
            let told = count(children.len(), "child", "children");
            let _ = write!(
                out,
                "<details class=below{}><summary title=\"show or hide the {told} of node {}\">{told}</summary><div class=kids>",
                open_word(open),
                node.number
            );
            children.iter().for_each(|child| self.branch(child, out));
            out.push_str("</div></details>");
        }
        out.push_str("</div>\n");
    }

    fn card(&self, node: &SeenNode<'_>, out: &mut String) {
        let change = self.change(node.number);
        let at_fault = self.survey.findings_in(node.number).next().is_some();
        let copied = change.new && node.is_leaf();
        let told = at_fault || node.origin.is_none() || (change.changed && !copied);
        let open = told || !self.compact;
        let hex = spell::hexadecimal;
        let unread = node.unread_from();
        let unread = unread.map_or(String::new(), |entry| format!(" data-unread={entry}"));
        let kind = match node.is_leaf() {
            true => "leaf",
            false => "interior",
        };
        let _ = write!(
            out,
            "<article class=\"node {kind}{}\" id={}{} data-n={} data-level={} data-low=\"{}\" \
             data-high=\"{}\" data-l=\"{}\"{unread}><details{}><summary>",
            change_classes(change),
            self.id,
            node.number,
            node.number,
            node.level,
            hex(&node.low),
            hex(&node.high),
            hex(node.lifted()),
            open_word(open),
        );
        self.title(node, change, out);
        out.push_str("</summary>");
        self.body(node, out);
        out.push_str("</details><p class=word hidden></p></article>");
    }

    fn change(&self, number: u16) -> Change {
        self.comparison
            .map_or(Change::default(), |c| c.of_node(number))
    }

    fn title(&self, node: &SeenNode<'_>, change: Change, out: &mut String) {
        let role = match (node.origin.is_none(), node.is_leaf()) {
            (true, true) => "root and leaf",
            (true, false) => "root",
            (false, true) => "leaf",
            (false, false) => "interior",
        };
        let _ = write!(
            out,
            "<span class=name>Node {}</span> <span class=role>{role}, level {}</span>{} <span class=gist>{}</span> <span class=range>{}</span>",
            node.number, node.level, badges(change), gist(node), range(node),
        );
    }

    fn body(&self, node: &SeenNode<'_>, out: &mut String) {
        for finding in self.survey.findings_in(node.number) {
            let name = finding.rule.name();
            let _ = write!(
                out,
                "<p class=fault><b>{name}</b> {}</p>",
                escape(&finding.detail)
            );
        }
        self.list(node, "messages", "waiting here, oldest first", out);
        self.list(node, "children", "children, each from its pivot on", out);
        self.list(node, "pairs", "", out);
        if node.entries.is_empty() {
            out.push_str("<p class=empty>no entries</p>");
        }
    }

    /// The entries of one kind, numbered within that kind.
    fn list(&self, node: &SeenNode<'_>, kind: &str, heading: &str, out: &mut String) {
        let is_kind = |entry: &Entry<'_>| match entry {
            Entry::Pair { .. } => kind == "pairs",
            Entry::Child { .. } => kind == "children",
            Entry::Message(_) => kind == "messages",
        };
        let wanted: Vec<usize> = (0..node.entries.len())
            .filter(|at| is_kind(&node.entries[*at]))
            .collect();
        if wanted.is_empty() {
            return;
        }
        if !heading.is_empty() {
            let _ = write!(out, "<h4>{heading}</h4>");
        }
        let _ = write!(out, "<ol class={kind}>");
        wanted.iter().for_each(|at| self.entry(node, *at, out));
        out.push_str("</ol>");
    }

    fn entry(&self, node: &SeenNode<'_>, at: usize, out: &mut String) {
        let lifted = node.lifted();
        let entry = node.entries[at];
        let (kind, shown) = match entry {
            Entry::Pair { suffix, value: v } => ("pair", path_and_value(lifted, suffix, v)),
            Entry::Child { number, suffix } => {
                let child = self.survey.child(node, at);
                let note = self.moved_note(node.number, at, child);
                let to = format!("href=\"#{}{number}\">node {number}</a>", self.id);
                let pivot = pivot(node, suffix, child);
                ("child", format!("{pivot} <a class=to {to}{note}"))
            }
            Entry::Message(message) => message_words(node, &message),
        };
        let word = match entry {
            Entry::Message(_) => format!("<span class=kind>{kind}</span> "),
            _ => String::new(),
        };
        let is_lost = matches!(entry, Entry::Child { .. }) && self.survey.child(node, at).is_none();
        let lost = if is_lost { " data-lost" } else { "" };
        let classes = self.entry_classes(node.number, at, kind);
        let hex = spell::hexadecimal(suffix_of(&entry));
        let _ = write!(
            out,
            "<li class=\"{classes}\" data-s=\"{hex}\"{lost}>{word}<span class=c>{shown}</span></li>"
        );
    }

    fn is_fresh(&self, number: u16, at: usize) -> bool {
        self.fresh
            .is_some_and(|fresh| fresh.contains(&(number, at)))
    }

    /// For a pointer that moved: the pivot under which the other image has the same child.
    fn moved_note(&self, number: u16, at: usize, child: Option<&SeenNode<'_>>) -> String {
        let (Some((other, word)), Some(child)) = (self.other, child) else {
            return String::new();
        };
        match other.node(child.number) {
            Some(there) if there.low != child.low && self.is_fresh(number, at) => {
                format!(
                    " <span class=note>{word} {}</span>",
                    split(&[], &letters(&there.low))
                )
            }
            _ => String::new(),
        }
    }

    fn entry_classes(&self, number: u16, at: usize, kind: &str) -> String {
        let fresh = self.is_fresh(number, at);
        let mut here = self.survey.findings_in(number);
        let faulty = here.any(|f| f.entry == Some(at) && f.rule != Rule::StoreSize);
        let mut classes = format!("e {kind}");
        classes.push_str(if fresh { " fresh" } else { "" });
        classes.push_str(if faulty { " faulty" } else { "" });
        classes
    }
}

fn open_word(open: bool) -> &'static str {
    match open {
        true => " open",
        false => "",
    }
}

pub fn change_classes(change: Change) -> String {
    let words = [
        (change.changed, " changed"),
        (change.new, " new"),
        (change.gone, " gone"),
        (change.renamed, " renamed"),
    ];
    words
        .iter()
        .filter(|(is, _)| *is)
        .map(|(_, word)| *word)
        .collect()
}

pub fn badges(change: Change) -> String {
    let words = [
        (change.new, "new", "new"),
        (change.gone, "gone", "gone"),
        (
            change.changed && !change.new && !change.gone,
            "changed",
            "changed",
        ),
        (change.renamed, "renamed", "same bytes, new prefix"),
    ];
    let shown = words.iter().filter(|(is, _, _)| *is);
    let written =
        shown.map(|(_, class, word)| format!(" <span class=\"badge {class}\">{word}</span>"));
    written.collect()
}

/// The one line that a closed card still shows.
fn gist(node: &SeenNode<'_>) -> String {
    let from = match &node.low[..] {
        [] => "start".into(),
        low => letters(low),
    };
    let mut told = vec![format!("<span class=from>{from}…</span>")];
    let counts = [
        (node.messages().count(), "message", "messages"),
        (node.children().count(), "child", "children"),
        (node.pairs().count(), "pair", "pairs"),
    ];
    for (number, one, more) in counts {
        if number > 0 {
            told.push(count(number, one, more));
        }
    }
    told.join(" · ")
}

/// The range in words, the lifted prefix in grey.
fn range(node: &SeenNode<'_>) -> String {
    let lifted = node.lifted();
    let end = |pivot: &[u8]| match pivot {
        [] => "<span class=none>the start</span>".into(),
        [0xFF] => "<span class=none>the end</span>".into(),
        _ => match &pivot[lifted.len()..] {
            [] => format!(
                "<span class=path><span class=l>{}</span></span>",
                letters(lifted)
            ),
            rest => split(lifted, &letters(rest)),
        },
    };
    let owns = match whole(node) {
        Some([]) => "owns every path".into(),
        Some(path) => format!(
            "owns all below <span class=path><span class=l>{}</span></span>",
            letters(path)
        ),
        None => format!("owns from {} up to {}", end(&node.low), end(&node.high)),
    };
    let lifts = match lifted {
        [] => "lifts nothing".into(),
        _ => format!(
            "lifts <span class=path><span class=l>{}</span></span>",
            letters(lifted)
        ),
    };
    let doubt = match node.range_known {
        true => "",
        false => " (a pivot above is broken)",
    };
    format!("{owns}{doubt}; {lifts}")
}
