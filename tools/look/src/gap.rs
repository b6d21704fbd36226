// What was not read of a damaged image, and so what cannot be told of a path there.
// It relies on a survey and a trace; the page's script has the same rule (`gapOnWay`, `gapBelow`).

use crate::survey::{SeenNode, Survey};
use crate::trace::{Ending, Trace};
use second::image::RawMessage;
use second::path::overlap;

/// The strings from the first up to, and not including, the second.
type Range<'r> = (&'r [u8], &'r [u8]);

/// Why the lookup decided nothing, where it did not. The empty path is not looked up: it needs a
/// root alone.
pub fn on_way(survey: &Survey<'_>, trace: &Trace) -> Option<String> {
    let is_whole = trace.path.is_empty() && !survey.nodes.is_empty();
    if trace.decided.is_some() || is_whole {
        return None;
    }
    let told = trace.steps.last().and_then(|last| {
        let node = survey.node(last.number)?;
        Some(match (last.ending, last.owner) {
            (Ending::Unread(entry), _) => unread(node, entry),
            (_, Some(owner)) => leads_nowhere(node, owner),
            _ => format!("no child of node {} owns it", node.number),
        })
    });
    Some(told.unwrap_or("node 0 leads to no root that can be read".into()))
}

/// The first place that was not read and may hold records below a path.
pub fn below(survey: &Survey<'_>, path: &[u8]) -> Option<String> {
    let end = [path, &[0xFF]].concat();
    let mut nodes = survey.nodes.iter();
    nodes.find_map(|node| gap_in(survey, node, (path, &end)))
}

fn gap_in(survey: &Survey<'_>, node: &SeenNode<'_>, range: Range<'_>) -> Option<String> {
    if let Some(entry) = node.unread_from() {
        let parent = node.origin.and_then(|origin| survey.node(origin.parent));
        let wanted = common((&node.low, &node.high), range);
        let is_open = wanted.is_some_and(|wanted| !is_cleared(survey, parent, wanted));
        return is_open.then(|| unread(node, entry));
    }
    let children: Vec<(usize, u16, &[u8])> = node.children().filter(|_| !node.is_leaf()).collect();
    let pivot = |i: usize| match children.get(i) {
        Some((_, _, suffix)) => [node.lifted(), suffix].concat(),
        None => node.high.clone(),
    };
    let mut lost = children.iter().enumerate().filter(|(i, (at, _, _))| {
        let (low, high) = (pivot(*i), pivot(i + 1));
        let wanted = common((&low, &high), range);
        let is_open = wanted.is_some_and(|wanted| !is_cleared(survey, Some(node), wanted));
        is_open && survey.child(node, *at).is_none()
    });
    lost.next().map(|(_, (at, _, _))| leads_nowhere(node, *at))
}

fn common<'r>(a: Range<'r>, b: Range<'r>) -> Option<Range<'r>> {
    overlap(a, b).then(|| (a.0.max(b.0), a.1.min(b.1)))
}

/// Whether a clear in this node or above it makes the whole range absent: what stands further
/// down is older and does not matter.
fn is_cleared(survey: &Survey<'_>, node: Option<&SeenNode<'_>>, (low, high): Range<'_>) -> bool {
    let Some(node) = node else {
        return false;
    };
    let clears = |message: &RawMessage<'_>| match message {
        RawMessage::Clear { suffix: [] } => true,
        RawMessage::Clear { suffix } => {
            let path = [node.lifted(), suffix].concat();
            path.as_slice() <= low && high <= &[&path[..], &[0xFF]].concat()[..]
        }
        _ => false,
    };
    let parent = node.origin.and_then(|origin| survey.node(origin.parent));
    node.messages().any(|(_, message)| clears(&message)) || is_cleared(survey, parent, (low, high))
}

fn unread(node: &SeenNode<'_>, entry: usize) -> String {
    format!("node {} was not read from entry {entry} on", node.number)
}

fn leads_nowhere(node: &SeenNode<'_>, entry: usize) -> String {
    let (name, number) = (node.entry_name(entry), node.number);
    format!("{name} of node {number} leads to no node that can be read there")
}
