// A small store that meets the contract and is deliberately simple: every call that changes
// the map reads the whole table, applies the rule and packs it again. It may be given a fault,
// so that the checks can be seen to find one.

use crate::image::{self, Header};
use crate::limits::*;
use crate::listed::BatchFault;
use crate::meaning;
use crate::pack;
use crate::plain::{self, Answer, Call, Outcome, Plain};
use crate::sound::{Rule, Sound};
use crate::subject::{Capabilities, Numbers, Subject};
use crate::tree::{Body, Message, Node, Pair, Table, Tree, Visit};
use crate::upkeep;
use crate::{wrong, wrong_limit};

pub use crate::fault::Fault;

#[derive(Clone, Copy, Debug, Default)]
pub struct Reference {
    pub fault: Option<Fault>,
    /// A fault of its batches.
    pub batch_fault: Option<BatchFault>,
}

impl Reference {
    fn is(&self, fault: Fault) -> bool {
        self.fault == Some(fault)
    }

    /// Is the image sound to it?
    fn judge(&self, image: &[u8]) -> Result<Sound, Rule> {
        wrong_limit::judged(self.fault, image)
    }

    /// Does it keep only the front of the values that such a call carries?
    fn cuts(&self, call: &Call) -> bool {
        self.fault
            .is_some_and(|fault| wrong_limit::cuts(fault, call))
    }

    /// A call that is lent a work area.
    fn act(&self, store: &mut [u8], work: &mut [u8], call: &Call) -> Numbers {
        let number = match self.try_act(store, work, call) {
            Ok(()) => 0,
            Err(number) => number,
        };
        let n = store.len() / NODE;
        if number == 0 || self.is(Fault::RefusalWipesWork) {
            self.leave_work(work, WORK_PER_NODE * n);
        }
        if number != 0 && self.is(Fault::RefusalTouchesStore) {
            touch(store);
        }
        (number, 0)
    }

    fn leave_work(&self, work: &mut [u8], length: usize) {
        let length = match self.fault {
            Some(Fault::WorkLeftDirty) => length.saturating_sub(1),
            Some(Fault::WorkWipedWhole) => work.len(),
            _ => length,
        };
        if let Some(front) = work.get_mut(..length) {
            front.fill(0);
        }
    }

    fn try_act(&self, store: &mut [u8], work: &[u8], call: &Call) -> Result<(), u32> {
        let n = image::nodes_of(store.len()).ok_or(plain::NO_LENGTHS)?;
        if work.len() < WORK_PER_NODE * n || self.is(Fault::RefusesAll) {
            return Err(plain::NO_LENGTHS);
        }
        let before = self.judge(store).map_err(|_| plain::NO_SOUND)?;
        let mut table = self.table_after(&before, call)?;
        if self.cuts(call) {
            wrong_limit::cut_table(&mut table);
        }
        let after = self.store_after(store, &before, &table, call);
        if let Some(after) = after {
            store.copy_from_slice(&after);
            self.miscount(store);
        }
        Ok(())
    }

    fn miscount(&self, store: &mut [u8]) {
        if self.is(Fault::LiveOffByOne) {
            store[HEADER_BYTES - 2] = store[HEADER_BYTES - 2].wrapping_add(1);
        }
    }

    /// The map after the call, or the number of its refusal.
    fn table_after(&self, before: &Sound, call: &Call) -> Result<Table, u32> {
        let mut plain = plain_of(before);
        if let Call::Flush { node, .. } | Call::Heal { node, .. } = call {
            let found = before.tree.find(self.number(*node));
            let interior = found.is_some_and(|v| v.node.is_interior());
            return interior.then_some(plain.table).ok_or(plain::NO_NODE);
        }
        let mistaken = |fault| wrong::with_empty_path(fault, call, &plain.table);
        if let Some(mistaken) = self.fault.and_then(mistaken) {
            return mistaken;
        }
        if self.is(Fault::PutRefusesWhenFull)
            && matches!(call, Call::Put { .. })
            && plain.table.len() == plain.n
        {
            return Err(plain::NO_ROOM);
        }
        let number = self.step(&mut plain, call);
        if number == plain::NO_ROOM_IN_PATH && self.is(Fault::MoveForgetsComponents) {
            return deepened(before, call).ok_or(number);
        }
        if number != 0 {
            return Err(number);
        }
        match call {
            Call::Clear { path, .. } if self.is(Fault::ClearTakesNamesakes) => {
                let name = path.strip_suffix(&[0]).unwrap_or(path);
                plain.table.retain(|p, _| !p.starts_with(name));
            }
            Call::Move { to, .. } if self.is(Fault::MoveKeepsDestination) => {
                keep_below(to, before, &mut plain.table);
            }
            Call::Move { from, .. } if self.is(Fault::MoveKeepsSource) => {
                keep_below(from, before, &mut plain.table);
            }
            _ => {}
        }
        Ok(plain.table)
    }

    /// The step of the plain map, or a wrong one, and its number.
    fn step(&self, plain: &mut Plain, call: &Call) -> u32 {
        let mistaken = |fault| wrong_limit::put(fault, call, plain);
        match self.fault.and_then(mistaken) {
            Some(number) => number,
            None => plain.step(call).map_or(0, |outcome| outcome.answer.number),
        }
    }

    fn number(&self, node: u64) -> u64 {
        match self.is(Fault::NarrowsNumbers) {
            true => u64::from(node as u32),
            false => node,
        }
    }

    /// The store after the call; none where not a byte of it changes.
    fn store_after(
        &self,
        store: &[u8],
        before: &Sound,
        table: &Table,
        call: &Call,
    ) -> Option<Vec<u8>> {
        if let Some(seeming) = self.seeming(store, before, call) {
            return Some(seeming);
        }
        match call {
            Call::Move { from, to, .. } if from == to && !self.is(Fault::MoveOntoItselfPacks) => {
                None
            }
            Call::Flush { .. } if self.is(Fault::FlushLeavesMessages) => None,
            Call::Settle { .. } if self.is(Fault::SettleLeavesMessages) => None,
            Call::Tidy { .. } if self.is(Fault::TidyDoesNothing) => None,
            Call::Tidy { .. } if self.is(Fault::TidySpreads) => spread(table, before.n),
            Call::Heal { .. } if self.is(Fault::HealDoesNothing) => None,
            Call::Heal { node, .. } if !self.is(Fault::HealPacks) => {
                let node = self.number(*node);
                let mut tree = healed(&before.tree, node, self.is(Fault::HealAddsMessage));
                if self.cuts(call) {
                    wrong_limit::cut_pairs(&mut tree.root);
                }
                let mut after = store.to_vec();
                tree.write(table.len() as u16, &mut after)?;
                Some(after)
            }
            _ => pack::image(table, before.n),
        }
    }

    /// Upkeep of the root that only seems to be done, where the store has room for it.
    fn seeming(&self, store: &[u8], before: &Sound, call: &Call) -> Option<Vec<u8>> {
        let (node, tree) = match (self.fault?, call) {
            (Fault::FlushRaisesNode, Call::Flush { node, .. })
            | (Fault::HealPutsLevelBetween, Call::Heal { node, .. }) => {
                (*node, wrong::level_between(before)?)
            }
            (Fault::FlushLiftsMessages, Call::Flush { node, .. }) => {
                (*node, wrong::messages_lifted(before)?)
            }
            _ => return None,
        };
        let mut after = store.to_vec();
        tree.write(before.table.len() as u16, &mut after)?;
        (u64::from(before.tree.root.number) == node).then_some(after)
    }

    /// get and next: no work area, and no byte of the store changes.
    fn read(&self, store: &mut [u8], buffer: &mut [u8], call: &Call) -> Numbers {
        let answer = self.try_read(store, buffer, call);
        if self.is(Fault::ReadTouchesStore) {
            touch(store);
        }
        match answer {
            Ok(answer) => (answer.number, answer.beside),
            Err(number) => (number, 0),
        }
    }

    /// What check answers.
    fn counted(&self, store: &[u8]) -> Numbers {
        if image::nodes_of(store.len()).is_none() {
            return (plain::NO_LENGTHS, 0);
        }
        let told = u32::from(Header::read(store).live);
        match self.judge(store) {
            _ if self.is(Fault::CheckBelievesNodeZero) => (0, told),
            Ok(sound) if self.is(Fault::CheckCountsPairs) => (0, pairs(&sound)),
            Ok(sound) => (0, sound.table.len() as u32),
            Err(_) if self.is(Fault::CheckTellsWhenRefused) => (plain::NO_SOUND, told),
            Err(_) => (plain::NO_SOUND, 0),
        }
    }

    fn try_read(&self, store: &[u8], buffer: &mut [u8], call: &Call) -> Result<Answer, u32> {
        image::nodes_of(store.len()).ok_or(plain::NO_LENGTHS)?;
        let mut before = self.judge(store).map_err(|_| plain::NO_SOUND)?;
        if let Some(number) = self.fault.and_then(|fault| wrong::no_read(fault, call)) {
            return Err(number);
        }
        if self.is(Fault::GetIgnoresClears) {
            before.table = meaning::table(&without_clears(&before.tree.root));
        }
        let mut plain = plain_of(&before);
        let mut call = call.clone();
        if let (true, Call::Next { after, .. }) = (self.is(Fault::NextMayRepeat), &mut call) {
            let earlier = plain.table.range(..after.clone()).next_back();
            *after = earlier.map_or(Vec::new(), |(path, _)| path.clone());
        }
        if let Call::Get { buffer, .. } = &mut call {
            // The plain map asks for the right length: what this store takes is made that long.
            let least = wrong_limit::least_buffer(self.fault);
            buffer.resize((buffer.len() + GET_BUFFER).saturating_sub(least), 0);
        }
        let outcome = plain.step(&call).ok_or(0u32)?;
        if outcome.answer.accepted() {
            self.hand_over(&call, &outcome, buffer);
        }
        Ok(outcome.answer)
    }

    /// What an accepted call leaves in the buffer.
    fn hand_over(&self, call: &Call, outcome: &Outcome, buffer: &mut [u8]) {
        let most = match call {
            Call::Get { .. } if self.is(Fault::GetCutsValue) => OLD_VALUE_LIMIT,
            _ => outcome.buffer.len(),
        };
        let length = most.min(buffer.len());
        buffer[..length].copy_from_slice(&outcome.buffer[..length]);
        if self.is(Fault::GetWipesBuffer) {
            buffer[outcome.answer.beside as usize..].fill(0);
        }
    }
}

/// How many pairs stand in the leaves, whatever waits above them.
fn pairs(sound: &Sound) -> u32 {
    let walk = sound.tree.walk();
    walk.iter().map(|v| v.node.pairs().len() as u32).sum()
}

fn plain_of(before: &Sound) -> Plain {
    Plain {
        n: before.n,
        table: before.table.clone(),
    }
}

/// The rows below a path come back where the table has none.
fn keep_below(path: &[u8], before: &Sound, table: &mut Table) {
    let old = before.table.iter().filter(|(p, _)| p.starts_with(path));
    for (path, value) in old {
        table.entry(path.clone()).or_insert_with(|| value.clone());
    }
}

/// The table that a refused move would leave, where no path in it is too long.
fn deepened(before: &Sound, call: &Call) -> Option<Table> {
    let Call::Move { from, to, .. } = call else {
        return None;
    };
    let left = plain::moved(&before.table, from, to);
    left.keys().all(|p| p.len() <= PATH_LIMIT).then_some(left)
}

/// Changes the last byte, which in most stores belongs to a free node.
fn touch(store: &mut [u8]) {
    if let Some(last) = store.last_mut() {
        *last ^= 1;
    }
}

/// A settled store with a leaf for every row, as far as the nodes go.
fn spread(table: &Table, n: usize) -> Option<Vec<u8>> {
    let leaf = |(i, (path, value)): (usize, (&Vec<u8>, &Vec<u8>))| {
        let low = if i == 0 { ROOT_LOW } else { &path[..] };
        let (path, value) = (path.clone(), value.clone());
        Node::leaf(low, vec![Pair { path, value }])
    };
    let leaves: Vec<Node> = table.iter().enumerate().map(leaf).collect();
    let mut tree = Tree {
        levels: 2,
        root: Node::interior(ROOT_LOW, leaves, Vec::new()),
    };
    let numbers: Vec<u16> = (1..n as u16).collect();
    tree.number(&numbers);
    let mut store = vec![0; n * NODE];
    match (1..n - 1).contains(&table.len()) {
        true => tree.write(table.len() as u16, &mut store).map(|_| store),
        false => pack::image(table, n),
    }
}

/// The tree with neighbouring children of one node joined while they fit.
fn healed(tree: &Tree, number: u64, adds_message: bool) -> Tree {
    let mut healed = tree.clone();
    let Some(visit) = tree.find(number) else {
        return healed;
    };
    let joined = joined_children(&visit);
    let gained = adds_message.then(|| Message::Clear {
        path: visit.lifted().to_vec(),
    });
    healed.root.for_each_mut(&mut |node| {
        if u64::from(node.number) == number {
            if let Body::Interior { children, messages } = &mut node.body {
                children.clone_from(&joined);
                // Where the children are empty, a clear before all others alters no map, and
                // only the rule on gained messages is broken.
                messages.splice(0..0, gained.clone());
            }
        }
    });
    healed
}

fn joined_children(visit: &Visit<'_>) -> Vec<Node> {
    let mut done: Vec<Node> = Vec::new();
    for right in visit.children() {
        let left = done.last().map(|node| Visit {
            node,
            level: right.level,
            low: &node.low,
            high: right.low,
        });
        let joined = left.and_then(|left| upkeep::join(&left, &right));
        if joined.is_some() {
            done.pop();
        }
        done.push(joined.unwrap_or_else(|| right.node.clone()));
    }
    done
}

fn without_clears(node: &Node) -> Node {
    let mut node = node.clone();
    node.for_each_mut(&mut |node| {
        if let Body::Interior { messages, .. } = &mut node.body {
            messages.retain(|m| !matches!(m, Message::Clear { .. }));
        }
    });
    node
}

#[rustfmt::skip]
impl Subject for Reference {
    fn capabilities(&self) -> Capabilities {
        Capabilities { move_bound: false, waiting_bound: false, ..Capabilities::ALL }
    }

    fn make(&mut self, store: &mut [u8]) -> Numbers {
        let Some(n) = image::nodes_of(store.len()) else {
            return (plain::NO_LENGTHS, 0);
        };
        if let Some(made) = pack::image(&Table::new(), n) {
            store.copy_from_slice(&made);
        }
        (0, 0)
    }

    fn same(&mut self, a: &mut [u8], b: &mut [u8]) -> Numbers {
        if image::nodes_of(a.len()).is_none() || image::nodes_of(b.len()).is_none() {
            return (plain::NO_LENGTHS, 0);
        }
        match (self.judge(a), self.judge(b)) {
            (Ok(a), Ok(b)) if self.is(Fault::SameComparesValues) => (0, (a.table == b.table).into()),
            (Ok(a), Ok(b)) => (0, plain::same(&a.table, &b.table).into()),
            _ => (plain::NO_SOUND, 0),
        }
    }

    fn check(&mut self, store: &mut [u8]) -> Numbers {
        if self.is(Fault::ReadTouchesStore) {
            touch(store);
        }
        self.counted(store)
    }

    fn get(&mut self, store: &mut [u8], path: &[u8], buffer: &mut [u8]) -> Numbers {
        let call = Call::Get { path: path.to_vec(), buffer: buffer.to_vec() };
        self.read(store, buffer, &call)
    }

    fn next(&mut self, store: &mut [u8], path: &[u8], after: &[u8], buffer: &mut [u8]) -> Numbers {
        let (path, after) = (path.to_vec(), after.to_vec());
        let call = Call::Next { path, after, buffer: buffer.to_vec() };
        self.read(store, buffer, &call)
    }

    fn put(&mut self, store: &mut [u8], path: &[u8], value: &[u8], work: &mut [u8]) -> Numbers {
        let (path, value) = (path.to_vec(), value.to_vec());
        let call = Call::Put { path, value, work: work.len() };
        self.act(store, work, &call)
    }

    fn drop(&mut self, store: &mut [u8], path: &[u8], work: &mut [u8]) -> Numbers {
        let call = Call::Drop { path: path.to_vec(), work: work.len() };
        self.act(store, work, &call)
    }

    fn clear(&mut self, store: &mut [u8], path: &[u8], work: &mut [u8]) -> Numbers {
        let call = Call::Clear { path: path.to_vec(), work: work.len() };
        self.act(store, work, &call)
    }

    fn move_(&mut self, store: &mut [u8], from: &[u8], to: &[u8], work: &mut [u8]) -> Numbers {
        let (from, to) = (from.to_vec(), to.to_vec());
        let call = Call::Move { from, to, work: work.len() };
        self.act(store, work, &call)
    }

    fn settle(&mut self, store: &mut [u8], work: &mut [u8]) -> Numbers {
        let call = Call::Settle { work: work.len() };
        self.act(store, work, &call)
    }

    fn tidy(&mut self, store: &mut [u8], work: &mut [u8]) -> Numbers {
        let call = Call::Tidy { work: work.len() };
        self.act(store, work, &call)
    }

    fn flush(&mut self, store: &mut [u8], node: u64, work: &mut [u8]) -> Numbers {
        let call = Call::Flush { node, work: work.len() };
        self.act(store, work, &call)
    }

    fn heal(&mut self, store: &mut [u8], node: u64, work: &mut [u8]) -> Numbers {
        let call = Call::Heal { node, work: work.len() };
        self.act(store, work, &call)
    }
}
