// The rules of soundness in the order of the paper's own sentence, each with the paper's words.
// The names are those of tests/second, so that both programs call a broken rule the same.

use second::sound::Rule;

/// Every rule, in the order in which the paper's sentence asks it.
pub const ORDER: [Rule; 37] = [
    Rule::StoreSize,
    Rule::HeaderLength,
    Rule::HeaderKind,
    Rule::Levels,
    Rule::LiveLimit,
    Rule::HeaderZeros,
    Rule::HeaderCount,
    Rule::RootNumber,
    Rule::ChildNumber,
    Rule::NodeLength,
    Rule::NodeKind,
    Rule::NodeReserved,
    Rule::NodeZeros,
    Rule::PivotLength,
    Rule::ReachedOnce,
    Rule::NodeLevel,
    Rule::EntryCut,
    Rule::EntryKind,
    Rule::SuffixLength,
    Rule::PairValue,
    Rule::PutValue,
    Rule::LeafOnlyPairs,
    Rule::PairWellFormed,
    Rule::PairOrder,
    Rule::PairOwned,
    Rule::InteriorNoPairs,
    Rule::NoChild,
    Rule::FirstPivot,
    Rule::PivotOrder,
    Rule::PivotOwned,
    Rule::ChildrenFirst,
    Rule::PutWellFormed,
    Rule::PutOwned,
    Rule::DropWellFormed,
    Rule::DropOwned,
    Rule::ClearShape,
    Rule::LiveCount,
];

pub fn place(rule: Rule) -> usize {
    ORDER.iter().position(|r| *r == rule).unwrap_or(ORDER.len())
}

/// What the paper says, shortened to the part that is asked.
pub fn words(rule: Rule) -> &'static str {
    match rule {
        Rule::StoreSize => "the store is n nodes of 1,024 bytes, n from 32 to 1,024",
        Rule::HeaderLength => "node 0: length 8",
        Rule::HeaderKind => "node 0: kind 0100",
        Rule::Levels => "node 0: levels (1 to 8)",
        Rule::LiveLimit => "node 0: live paths (at most n)",
        Rule::HeaderZeros => "node 0: the rest is zero",
        Rule::HeaderCount => "node 0 with n the store's own",
        Rule::RootNumber | Rule::ChildNumber => "root and child numbers from 1 to n less 1",
        Rule::NodeLength => "length of the entries at most 1,016",
        Rule::NodeKind => "kind 0001 leaf or 0002 interior",
        Rule::NodeReserved => "after the level a u16 zero",
        Rule::NodeZeros => "the entries, then zeros",
        Rule::PivotLength => "pivot suffix of at most 65 bytes",
        Rule::ReachedOnce => "each reachable node is reached once",
        Rule::NodeLevel => {
            "the root at the level that node 0 gives, each node one level under its parent"
        }
        Rule::EntryCut | Rule::EntryKind | Rule::SuffixLength => {
            "entries fill their length exactly; an entry that does not read makes its node unsound"
        }
        Rule::PairValue | Rule::PutValue => "every value at most 48 bytes",
        Rule::LeafOnlyPairs => "in a leaf only pairs",
        Rule::PairWellFormed => "in a leaf the pairs' paths are well formed",
        Rule::PairOrder => "in a leaf the pairs' paths are strictly rising",
        Rule::PairOwned => "in a leaf the pairs' paths are owned by it",
        Rule::InteriorNoPairs => "in an interior node children, then messages",
        Rule::NoChild => "in an interior node at least one child",
        Rule::FirstPivot => "the first pivot is the node's own low",
        Rule::PivotOrder => "pivots strictly rising",
        Rule::PivotOwned => "pivots owned",
        Rule::ChildrenFirst => "the children, then messages",
        Rule::PutWellFormed | Rule::DropWellFormed => "puts and drops well formed",
        Rule::PutOwned | Rule::DropOwned => "puts and drops owned",
        Rule::ClearShape => "a clear's suffix empty or, with the lifted prefix, a well-formed path",
        Rule::LiveCount => "the live count right",
    }
}

#[cfg(test)]
mod tests {
    use super::*;

    #[test]
    fn every_rule_has_one_place() {
        let mut order = ORDER.to_vec();
        order.sort();
        assert_eq!(order, Rule::ALL);
    }
}
