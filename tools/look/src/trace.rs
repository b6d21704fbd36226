// The way of one lookup, node by node: what each message says about the path, which entry
// decides, and in which entries the bytes of the path stand.
// It relies on a survey and follows the paper's "Meaning"; on unsound images it may stop early.

use crate::survey::{SeenNode, Survey};
use second::image::{Entry, RawMessage};

/// What a message says about the path.
#[derive(Clone, Copy, Debug, PartialEq, Eq)]
pub enum Word {
    Nothing,
    Value,
    Absent,
}

/// How the lookup leaves a node.
#[derive(Clone, Copy, Debug, PartialEq, Eq)]
pub enum Ending {
    /// The newest message that speaks of the path is this entry.
    Message(usize),
    Pair(usize),
    NoPair,
    /// Handed to the child of this entry.
    Down(usize),
    /// The image is unsound here and the way cannot be followed.
    Stopped,
    /// The node was not read from this entry on, counted from 1, and what would decide may stand
    /// there: in a leaf the pair, in an interior node a newer message or the child.
    Unread(usize),
}

#[derive(Clone, Debug)]
pub struct Step {
    pub number: u16,
    /// Each message's entry with what it says, oldest first.
    pub heard: Vec<(usize, Word)>,
    pub ending: Ending,
    /// The child entry that owns the path, in an interior node.
    pub owner: Option<usize>,
}

/// A part of the path and the entry in which its bytes stand.
#[derive(Clone, Debug, PartialEq, Eq)]
pub struct Piece {
    pub bytes: Vec<u8>,
    pub node: u16,
    pub entry: usize,
}

#[derive(Clone, Debug)]
pub struct Trace {
    pub path: Vec<u8>,
    /// Down to the leaf, past the step that decides: those after it are not asked.
    pub steps: Vec<Step>,
    /// The step that decides; none where the way stops.
    pub decided: Option<usize>,
    pub value: Option<Vec<u8>>,
    pub pieces: Vec<Piece>,
}

impl Trace {
    /// The empty path, which nothing can give a value, has no way.
    pub fn take(survey: &Survey<'_>, path: &[u8]) -> Trace {
        let steps = match path {
            [] => Vec::new(),
            _ => steps(survey, path),
        };
        let decides = |step: &Step| {
            matches!(
                step.ending,
                Ending::Message(_) | Ending::Pair(_) | Ending::NoPair
            )
        };
        let decided = steps.iter().position(decides);
        let mut trace = Trace {
            path: path.to_vec(),
            steps,
            decided,
            value: None,
            pieces: Vec::new(),
        };
        trace.value = trace
            .decider(survey)
            .and_then(|(node, at)| value_of(&node.entries[at]));
        trace.pieces = trace.find_pieces(survey);
        trace
    }

    /// The node and the entry that decide, where an entry does.
    pub fn decider<'s, 'a>(&self, survey: &'s Survey<'a>) -> Option<(&'s SeenNode<'a>, usize)> {
        let step = &self.steps[self.decided?];
        match step.ending {
            Ending::Message(entry) | Ending::Pair(entry) => {
                Some((survey.node(step.number)?, entry))
            }
            _ => None,
        }
    }

    /// A node's lifted bytes stand in the pivots above it: what it lifts more than its parent
    /// does is in the parent's entry for it.
    fn find_pieces(&self, survey: &Survey<'_>) -> Vec<Piece> {
        let mut pieces = Vec::new();
        let way = &self.steps[..self.decided.map_or(0, |at| at + 1)];
        let lifted = |step: &Step| survey.node(step.number).map_or(0, |n| n.lifted().len());
        for pair in way.windows(2) {
            let bytes = self.path.get(lifted(&pair[0])..lifted(&pair[1]));
            if let (Some(bytes @ [_, ..]), Some(entry)) = (bytes, pair[0].owner) {
                let (bytes, node) = (bytes.to_vec(), pair[0].number);
                pieces.push(Piece { bytes, node, entry });
            }
        }
        if let Some((node, entry)) = self.decider(survey) {
            let bytes = suffix_of(&node.entries[entry]).to_vec();
            let node = node.number;
            pieces.push(Piece { bytes, node, entry });
        }
        pieces
    }
}

fn steps(survey: &Survey<'_>, path: &[u8]) -> Vec<Step> {
    let mut steps = Vec::new();
    let mut next = survey.nodes.first();
    while let Some(node) = next {
        let mut step = step_at(node, path);
        next = match step.ending {
            Ending::Unread(_) => None,
            _ => step.owner.and_then(|entry| survey.child(node, entry)),
        };
        if next.is_none() && matches!(step.ending, Ending::Down(_)) {
            step.ending = Ending::Stopped;
        }
        steps.push(step);
    }
    steps
}

fn step_at(node: &SeenNode<'_>, path: &[u8]) -> Step {
    let mut step = Step {
        number: node.number,
        heard: Vec::new(),
        ending: Ending::Stopped,
        owner: None,
    };
    let Some(rest) = path.strip_prefix(node.lifted()) else {
        return step;
    };
    step.heard = node
        .messages()
        .map(|(at, raw)| (at, word_of(&raw, rest)))
        .collect();
    let newest = step.heard.iter().rfind(|(_, word)| *word != Word::Nothing);
    let pair = node.pairs().find(|(_, suffix, _)| *suffix == rest);
    let owner = node
        .children()
        .filter(|(_, _, pivot)| *pivot <= rest)
        .last();
    step.owner = owner.map(|(at, _, _)| at);
    step.ending = match (newest, pair, node.unread_from()) {
        (_, _, Some(entry)) if !node.is_leaf() => Ending::Unread(entry),
        (Some((at, _)), _, _) => Ending::Message(*at),
        (None, _, _) if !node.is_leaf() => step.owner.map_or(Ending::Stopped, Ending::Down),
        (None, Some((at, _, _)), _) => Ending::Pair(at),
        (None, None, Some(entry)) => Ending::Unread(entry),
        (None, None, None) => Ending::NoPair,
    };
    step
}

fn word_of(raw: &RawMessage<'_>, rest: &[u8]) -> Word {
    match *raw {
        RawMessage::Put { suffix, .. } if suffix == rest => Word::Value,
        RawMessage::Drop { suffix } if suffix == rest => Word::Absent,
        RawMessage::Clear { suffix } if rest.starts_with(suffix) => Word::Absent,
        _ => Word::Nothing,
    }
}

fn value_of(entry: &Entry<'_>) -> Option<Vec<u8>> {
    match entry {
        Entry::Pair { value, .. } | Entry::Message(RawMessage::Put { value, .. }) => {
            Some(value.to_vec())
        }
        _ => None,
    }
}

pub fn suffix_of<'e>(entry: &Entry<'e>) -> &'e [u8] {
    match *entry {
        Entry::Pair { suffix, .. } | Entry::Child { suffix, .. } => suffix,
        Entry::Message(RawMessage::Put { suffix, .. }) => suffix,
        Entry::Message(RawMessage::Drop { suffix } | RawMessage::Clear { suffix }) => suffix,
    }
}
