// Prints the examples as data of the proof language antt, to be compared by computation with
// the project's own definitions. All that fixes the shape of the print stands at the top.

use crate::examples::{self, Example};
use crate::limits::NODE;
use crate::sound::judge;
use crate::upkept::{Change, CHANGES};

/// Put before all blocks.
const HEADER: &str = "\
-- Images and what they are, printed by the second program: tests/samples writes this file anew. Do not edit.
use Rattle.std.specs.Prelude.{ℕ, ◌*◌, List, [], ◌∷◌, ◌++◌, true, false, replicate}
use Rattle.samples.specs.Verdict.{Verdict, Change, Kept, node, row}
";
/// One node of an image, up to its last byte that is not zero.
const NODE_BLOCK: &str = "\
abbrev pub {name}_{number} : List ℕ
{name}_{number} = {bytes}

";
/// The whole image.
const IMAGE_BLOCK: &str = "\
abbrev pub {name} : List ℕ
{name} = {parts}

";
/// What the image says: used counts node 0, so that used and free make n.
const VERDICT_BLOCK: &str = "\
abbrev pub {name}_says : Verdict
{name}_says = record { sound = {sound}; settled = {settled}; used = {used}; free = {free}; table = {table} }
";
/// A change of one image to another by upkeep of a node, what the rules of upkeep say of it, and
/// how many nodes it changes.
const CHANGE_BLOCK: &str = "\
abbrev pub {name} : Change
{name} = record { node = {node}; before = {before}; after = {after} }

abbrev pub {name}_keeps : Kept
{name}_keeps = record { none_waits = {none_waits}; flushed = {flushed}; healed = {healed}; none_gains = {none_gains} }

abbrev pub {name}_changes : ℕ
{name}_changes = {changed}
";
const COMMENT: &str = "-- {name}: {shows}\n";
const NODE_PART: &str = "node {name}_{number}";
const ZEROS_PART: &str = "replicate ({count} * 1024) 0";
const JOIN: &str = " ++ ";
const ROW: &str = "row {path} {value}";
const CONS: &str = " ∷ ";
const NIL: &str = "[]";

/// The whole file.
pub fn file() -> String {
    let examples = examples::all();
    let mut blocks: Vec<String> = examples.iter().map(block).collect();
    blocks.extend(CHANGES.iter().filter_map(|c| change(c, &examples)));
    format!("{HEADER}\n{}", blocks.join("\n"))
}

fn change(change: &Change, examples: &[Example]) -> Option<String> {
    let kept = change.kept(examples)?;
    let fields = [
        ("name", change.name.to_string()),
        ("node", change.node.to_string()),
        ("before", change.before.to_string()),
        ("after", change.after.to_string()),
        ("none_waits", kept.none_waits.to_string()),
        ("flushed", kept.flushed.to_string()),
        ("healed", kept.healed.to_string()),
        ("none_gains", kept.none_gains.to_string()),
        ("changed", kept.changed.to_string()),
    ];
    let fields: Vec<(&str, &str)> = fields.iter().map(|(k, v)| (*k, &v[..])).collect();
    Some(fill(CHANGE_BLOCK, &fields))
}

fn block(example: &Example) -> String {
    let comment = fill(
        COMMENT,
        &[("name", example.name), ("shows", &example.shows)],
    );
    format!("{comment}{}{}", image(example), verdict(example))
}

/// A template with each {key} replaced.
fn fill(template: &str, fields: &[(&str, &str)]) -> String {
    let replace =
        |text: String, (key, with): &(&str, &str)| text.replace(&format!("{{{key}}}"), with);
    fields.iter().fold(template.to_string(), replace)
}

fn image(example: &Example) -> String {
    let mut printed = String::new();
    let mut parts = Vec::new();
    let mut zeros = 0;
    for (number, node) in example.image.chunks(NODE).enumerate() {
        let number = number.to_string();
        let fields = [("name", example.name), ("number", &number)];
        match last_dirt(node) {
            None => zeros += 1,
            Some(last) => {
                end_zeros(&mut zeros, &mut parts);
                parts.push(fill(NODE_PART, &fields));
                let bytes = numbers(&node[..=last]);
                printed += &fill(&fill(NODE_BLOCK, &fields), &[("bytes", &bytes)]);
            }
        }
    }
    end_zeros(&mut zeros, &mut parts);
    let fields = [("name", example.name), ("parts", &parts.join(JOIN))];
    printed + &fill(IMAGE_BLOCK, &fields)
}

/// The place of the last byte that is not zero.
fn last_dirt(node: &[u8]) -> Option<usize> {
    node.iter().rposition(|b| *b != 0)
}

/// A run of nodes that are all zero becomes one part.
fn end_zeros(zeros: &mut usize, parts: &mut Vec<String>) {
    if *zeros > 0 {
        parts.push(fill(ZEROS_PART, &[("count", &zeros.to_string())]));
    }
    *zeros = 0;
}

fn numbers(bytes: &[u8]) -> String {
    list(bytes.iter().map(|b| b.to_string()))
}

fn list(items: impl Iterator<Item = String>) -> String {
    items.map(|item| item + CONS).collect::<String>() + NIL
}

/// A list as an argument.
fn bracketed(bytes: &[u8]) -> String {
    match bytes {
        [] => NIL.to_string(),
        _ => format!("({})", numbers(bytes)),
    }
}

fn row(path: &[u8], value: &[u8]) -> String {
    let fields = [("path", &bracketed(path)[..]), ("value", &bracketed(value))];
    fill(ROW, &fields)
}

fn verdict(example: &Example) -> String {
    let fields = match judge(&example.image) {
        Err(_) => [
            ("sound", "false".to_string()),
            ("settled", "false".to_string()),
            ("used", "0".to_string()),
            ("free", "0".to_string()),
            ("table", NIL.to_string()),
        ],
        Ok(sound) => [
            ("sound", "true".to_string()),
            ("settled", sound.settled().to_string()),
            ("used", (sound.used.len() + 1).to_string()),
            ("free", sound.free().to_string()),
            ("table", list(sound.table.iter().map(|(p, v)| row(p, v)))),
        ],
    };
    let fields: Vec<(&str, &str)> = fields.iter().map(|(k, v)| (*k, &v[..])).collect();
    fill(&fill(VERDICT_BLOCK, &[("name", example.name)]), &fields)
}
