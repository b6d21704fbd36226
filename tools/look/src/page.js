// The lookup on the page, as the paper's "Meaning" tells it, and the few keys and switches. What it says is what way.rs, below.rs and gap.rs say.
// Relies on the attributes of card.rs; strings are compared in hexadecimal, which keeps their order.
(function () {
  'use strict';
  const one = (id) => document.getElementById(id);
  const input = one('path'), follow = one('follow'), body = document.body;
  const sides = [...document.querySelectorAll('.image')].map((image) => {
    const id = image.id.slice('image-'.length);
    return { id, image, answer: one('answer-' + id), root: image.querySelector('.tree > .branch > .node') };
  });
  let openedByLookup = [];

  // ---- paths

  // The empty path is a lone slash: every path is below it.
  const hexOf = (text) => text === '/' ? '' : [...text].map((c) => (c === '/' ? '00' : c.charCodeAt(0).toString(16).padStart(2, '0'))).join('') + '00';

  function fault(text) {
    if (text === '/') return '';
    const parts = text.split('/');
    if (parts.some((p) => p === '')) return 'a component is empty';
    if (!/^[\x21-\x7e]*$/.test(text)) return 'a component may hold the bytes 21 to 7E only';
    if (parts.some((p) => p.length > 16)) return 'a component has more than 16 bytes';
    if (parts.length > 8) return 'it has more than 8 components';
    return text.length + 1 > 64 ? 'it has more than 64 bytes' : '';
  }

  // After a move a record is asked for by its new name, where the page knows the move.
  function nameOn(side, text) {
    if (side.id !== 'b' || !follow || !follow.checked) return text;
    const { from, to } = follow.dataset;
    return text === from || text.startsWith(from + '/') ? to + text.slice(from.length) : text;
  }

  // ---- the lookup

  const entries = (node, list) => [...node.querySelectorAll('ol.' + list + ' > li')];

  function speaks(message, rest) {
    const suffix = message.dataset.s;
    return message.classList.contains('clear') ? rest.startsWith(suffix) : rest === suffix;
  }

  function stepAt(node, hex) {
    const lifted = node.dataset.l;
    if (!hex.startsWith(lifted)) return { node, messages: [], spoken: [] };
    const rest = hex.slice(lifted.length);
    const messages = entries(node, 'messages');
    return {
      node, messages,
      leaf: node.dataset.level === '1',
      spoken: messages.filter((m) => speaks(m, rest)),
      pair: entries(node, 'pairs').find((p) => p.dataset.s === rest),
      owner: entries(node, 'children').filter((c) => c.dataset.s <= rest).pop(),
    };
  }

  // The node that a child entry leads to, if it is reached by this entry.
  const childOf = (owner) => (owner && !('lost' in owner.dataset) ? one(owner.querySelector('.to').getAttribute('href').slice(1)) : null);

  // The entry from which on a node was not read, where what decides may stand there: in a leaf the pair, in an interior node a newer message.
  const unreadAt = (step, newest) => (step.leaf && (newest || step.pair) ? undefined : step.node.dataset.unread);

  // The empty path, which nothing can give a value, has no way.
  function lookup(side, hex) {
    const steps = [], isWhole = hex === '';
    let decided = null;
    for (let node = isWhole ? null : side.root; node;) {
      const step = stepAt(node, hex);
      const newest = step.spoken[step.spoken.length - 1];
      step.past = decided !== null;
      step.unread = unreadAt(step, newest);
      const ends = (newest || step.leaf) && !step.unread;
      if (!decided && ends) decided = { step, entry: newest || step.pair || null };
      steps.push(step);
      node = step.unread ? null : childOf(step.owner);
    }
    return { steps, decided, isWhole };
  }

  const valueOf = (entry) => (entry && entry.matches('.pair, .put') ? entry.querySelector('.v').textContent : null);

  // ---- words

  function make(tag, className, ...parts) {
    const element = document.createElement(tag);
    element.className = className;
    element.append(...parts);
    return element;
  }

  function nameOf(entry) {
    const kind = entry.matches('.pair') ? 'pair' : entry.matches('.child') ? 'child' : 'message';
    return kind + ' ' + ([...entry.parentNode.children].indexOf(entry) + 1);
  }

  const kindOf = (entry) => ['put', 'drop', 'clear'].find((kind) => entry.classList.contains(kind));
  const upper = (text) => text.replace(/^./, (c) => c.toUpperCase());
  const nodeName = (node) => 'node ' + node.dataset.n;

  // ---- what a damaged image does not tell

  const unreadWords = (node) => nodeName(node) + ' was not read from entry ' + node.dataset.unread + ' on';
  const nowhereWords = (entry) => nameOf(entry) + ' of ' + nodeName(entry.closest('.node')) + ' leads to no node that can be read there';

  // Why the lookup decided nothing, where it did not. The empty path is not looked up: it needs a root alone.
  function gapOnWay(side, found) {
    if (found.decided || (found.isWhole && side.root)) return '';
    const last = found.steps[found.steps.length - 1];
    if (!last) return 'node 0 leads to no root that can be read';
    if (last.unread) return unreadWords(last.node);
    return last.owner ? nowhereWords(last.owner) : 'no child of ' + nodeName(last.node) + ' owns it';
  }

  // The part of a range that lies below the path, or null.
  function common(low, high, hex) {
    const wanted = { low: low > hex ? low : hex, high: high < hex + 'ff' ? high : hex + 'ff' };
    return wanted.low < wanted.high ? wanted : null;
  }

  const meets = (node, hex) => common(node.dataset.low, node.dataset.high, hex) !== null;
  const parentOf = (node) => { const above = node.parentNode.parentNode.closest('.branch'); return above && above.querySelector('.node'); };

  // Whether a clear in this node or above it makes the whole range absent: what stands further down is older and does not matter.
  function isCleared(node, wanted) {
    if (!node) return false;
    const clears = (suffix) => suffix === '' || (node.dataset.l + suffix <= wanted.low && wanted.high <= node.dataset.l + suffix + 'ff');
    const messages = entries(node, 'messages').filter((m) => m.classList.contains('clear'));
    return messages.some((m) => clears(m.dataset.s)) || isCleared(parentOf(node), wanted);
  }

  function gapIn(node, hex) {
    const isOpen = (low, high, above) => { const wanted = common(low, high, hex); return wanted && !isCleared(above, wanted); };
    if (node.dataset.unread) return isOpen(node.dataset.low, node.dataset.high, parentOf(node)) ? unreadWords(node) : '';
    const children = node.dataset.level === '1' ? [] : entries(node, 'children');
    const pivot = (i) => (children[i] ? node.dataset.l + children[i].dataset.s : node.dataset.high);
    const lost = children.find((child, i) => !childOf(child) && isOpen(pivot(i), pivot(i + 1), node));
    return lost ? nowhereWords(lost) : '';
  }

  // The first place that was not read and may hold records below the path.
  function gapBelow(side, hex) {
    return [...side.image.querySelectorAll('.node')].map((node) => gapIn(node, hex)).find((gap) => gap) || '';
  }

  // ---- why, and how on

  function reason(found) {
    const { step, entry } = found.decided;
    if (!entry) return 'Decided by ' + nodeName(step.node) + ', the leaf that owns it: no pair there has this path.';
    if (step.leaf) return 'Decided by ' + nameOf(entry) + ' of the leaf ' + nodeName(step.node) + '.';
    const { low, high } = step.node.dataset, all = low === '' && high === 'ff' ? 'everything' : 'all that the node owns';
    const what = { put: 'a put', drop: 'a drop', clear: 'a clear of ' + (entry.dataset.s ? 'a beginning of it' : all) };
    return 'Decided by ' + nameOf(entry) + ' of ' + nodeName(step.node) + ', ' + what[kindOf(entry)] + ' that waits there.';
  }

  function wordsFor(step, found) {
    const down = step.owner && nameOf(step.owner) + ' owns it: on to ' + step.owner.querySelector('.to').textContent + '.';
    if (step.past) {
      const told = step.pair || step.spoken[0] ? ' What stands here is older and overruled.' : '';
      return 'Not asked any more: ' + nodeName(found.decided.step.node) + ' has decided.' + told;
    }
    if (step.unread) return 'Not read from entry ' + step.unread + ' on: the way ends.';
    if (!found.decided && step === found.steps[found.steps.length - 1]) return 'The way cannot be followed: the image is unsound here.';
    const newest = step.spoken[step.spoken.length - 1];
    if (newest) {
      const older = step.spoken.length > 1 ? ' It is newer than the others that do.' : '';
      return nameOf(newest) + ' speaks of this path and decides.' + older;
    }
    if (step.leaf) return step.pair ? nameOf(step.pair) + ' has this path and decides.' : 'No pair has this path: it has no value.';
    return (step.messages.length ? 'No message here speaks of this path. ' : 'No message waits here. ') + (down ? upper(down) : '');
  }

  function pieceBox(bytes, node, entry, last) {
    const code = make('code', '');
    code.append(...(bytes ? bytes.cloneNode(true).childNodes : ['–']));
    return make('div', last ? 'piece last' : 'piece', code, nodeName(node), document.createElement('br'), nameOf(entry));
  }

  // A node's lifted bytes stand in the pivots above it.
  function pieces(found) {
    const row = make('div', 'pieces', make('span', 'lead', 'Its bytes stand in'));
    for (const step of found.steps) {
      if (step === found.decided.step) break;
      const front = step.owner.querySelector('.f');
      if (front) row.append(pieceBox(front, step.node, step.owner, false));
    }
    const { step, entry } = found.decided;
    row.append(pieceBox(entry.querySelector('.s'), step.node, entry, true));
    return row;
  }

  function runs(numbers) {
    const drawn = [];
    for (const number of numbers) {
      const last = drawn[drawn.length - 1];
      if (last && last[1] + 1 === number) last[1] = number;
      else drawn.push([number, number]);
    }
    return drawn.map(([from, to]) => (from === to ? '' + from : from + '-' + to)).join(', ');
  }

  // The records whose nodes lift equally much of the path, the most lifted first.
  function sharesOf(records, length) {
    const shares = new Map();
    for (const entry of records) {
      const node = entry.closest('.node');
      const lifted = Math.min(node.dataset.l.length / 2, length);
      const share = shares.get(lifted) || { lifted, nodes: new Set(), records: 0 };
      share.nodes.add(Number(node.dataset.n));
      share.records += 1;
      shares.set(lifted, share);
    }
    return [...shares.values()].sort((a, b) => b.lifted - a.lifted);
  }

  const counted = (number) => (number === 1 ? '1 record' : number + ' records');

  function shareLine(share, bytes) {
    const nodes = [...share.nodes].sort((a, b) => a - b);
    const front = make('code', 'l', bytes.slice(0, share.lifted)), rest = make('code', '', bytes.slice(share.lifted));
    const line = make('p', 'share', (nodes.length === 1 ? 'node ' : 'nodes ') + runs(nodes) + ': ');
    if (share.lifted === bytes.length) line.append('all of ', front, ' is lifted');
    else line.append(...(share.lifted ? [front, ' is lifted, '] : ['nothing of it is lifted, ']), rest, ' is stored with each record');
    line.append(' (' + counted(share.records) + ')');
    return line;
  }

  // Of a path that only has records below it: what is true of those, since their nodes need not lift the same.
  function sharesBelow(text, records) {
    const lead = make('p', 'share', 'Where its bytes stand (lifted ones in the pivots above the node):');
    const bytes = text + '/';
    return make('div', 'shares', lead, ...sharesOf(records, bytes.length).map((share) => shareLine(share, bytes)));
  }

  // What the path has, or why that cannot be told.
  function sayAnswer(verdict, found, records, gap) {
    const value = valueOf(found.decided && found.decided.entry);
    const told = make('span', 'has', counted(records.length));
    const own = found.decided ? ' has no value of its own, and at least ' : ' has at least ';
    if (value !== null) verdict.append(' has the value ', make('code', 'has', value), '.');
    else if (records.length && gap) verdict.append(own, told, ' below it; ' + gap + ', so whether there is more cannot be told.');
    else if (records.length) verdict.append(' has ', told, found.isWhole ? ' below it: the whole store.' : ' below it, and no value of its own.');
    else if (gap && found.decided) verdict.append(' has no value of its own; ' + gap + ', so what is below it cannot be told.');
    else if (gap) verdict.append(': ' + gap + ', so this cannot be told.');
    else if (found.isWhole) verdict.append(' has no record below it: the store is empty.');
    else verdict.append(' is absent.');
    return value;
  }

  function tellAnswer(side, text, found, records) {
    const { word } = side.answer.dataset, { refusal } = side.image.dataset;
    if (refusal) side.answer.append(make('p', 'reason', refusal + '. What its bytes would say:'));
    const verdict = make('p', 'verdict', make('span', 'side', word ? word + ': ' : ''), make('code', '', text));
    const gap = gapOnWay(side, found) || gapBelow(side, hexOf(text));
    const value = sayAnswer(verdict, found, records, gap);
    if (found.decided && (value !== null || !gap)) verdict.append(make('span', 'reason', ' ' + reason(found)));
    if (records.length) verdict.append(make('span', 'reason', ' What is below it is marked in the tree.'));
    side.answer.append(verdict);
    if (value === null && records.length && !found.isWhole) side.answer.append(sharesBelow(text, records));
    else if (found.decided && found.decided.entry) side.answer.append(pieces(found));
  }

  // ---- lighting

  function dark() {
    document.querySelectorAll('.lit, .past, .holds').forEach((b) => b.classList.remove('lit', 'past', 'holds'));
    document.querySelectorAll('.e').forEach((e) => e.classList.remove('owner', 'speaks', 'overruled', 'decides', 'under'));
    document.querySelectorAll('.word').forEach((w) => { w.hidden = true; w.classList.remove('end'); });
    document.querySelectorAll('.asking').forEach((s) => s.classList.remove('asking'));
    sides.forEach((side) => side.answer.replaceChildren());
    openedByLookup.forEach((d) => { d.open = false; });
    openedByLookup = [];
  }

  function open(details) {
    if (!details || details.open) return;
    details.open = true;
    openedByLookup.push(details);
  }

  function lightStep(step, found) {
    const branch = step.node.parentNode;
    branch.classList.add('lit');
    branch.classList.toggle('past', step.past);
    open(step.node.querySelector('details'));
    open(branch.querySelector(':scope > .below'));
    const decider = found.decided && found.decided.entry;
    for (const entry of [...step.spoken, ...(step.pair ? [step.pair] : [])]) {
      entry.classList.add('speaks');
      if (found.decided) entry.classList.add(entry === decider ? 'decides' : 'overruled');
    }
    if (step.owner && !step.unread && !(found.decided && found.decided.step === step)) step.owner.classList.add('owner');
    const word = step.node.querySelector('.word');
    word.textContent = upper(wordsFor(step, found));
    word.hidden = false;
    word.classList.toggle('end', Boolean(found.decided && found.decided.step === step));
  }

  // The entries that decide the records below the path, itself left out.
  function recordsBelow(side, hex) {
    const paths = new Set();
    for (const node of [...side.image.querySelectorAll('.node')].filter((n) => meets(n, hex))) {
      for (const entry of node.querySelectorAll('.pair, .put')) {
        const path = node.dataset.l + entry.dataset.s;
        if (path.startsWith(hex) && path !== hex) paths.add(path);
      }
    }
    const found = [...paths].map((path) => lookup(side, path).decided);
    return found.map((decided) => decided && decided.entry).filter((entry) => valueOf(entry) !== null);
  }

  function lightBelow(entry) {
    entry.classList.add('under');
    for (let b = entry.closest('.branch'); b; b = b.parentNode.closest('.branch')) b.classList.add('holds');
  }

  // The key names the marks that are there now.
  function lightKey() {
    document.querySelectorAll('.key [data-mark]').forEach((line) => { line.hidden = !document.querySelector('main ' + line.dataset.mark); });
  }

  function ask(text, scroll) {
    dark();
    if (text) sides.forEach((side) => askSide(side, nameOn(side, text)));
    lightKey();
    measure();
    if (scroll) goToDecider(scroll);
  }

  function askSide(side, text) {
    const why = fault(text);
    if (why) return side.answer.append(make('p', 'reason', 'No path yet: ' + why + '.'));
    if (side.image.dataset.nodes === '0') return side.answer.append(make('p', 'reason', side.image.dataset.refusal + '.'));
    const hex = hexOf(text);
    const found = lookup(side, hex), records = recordsBelow(side, hex);
    side.image.classList.add('asking');
    found.steps.forEach((step) => lightStep(step, found));
    records.forEach(lightBelow);
    tellAnswer(side, text, found, records);
  }

  function inSight(target) {
    const box = target.getBoundingClientRect();
    const bar = document.querySelector('.bar').offsetHeight;
    return box.top >= bar && box.bottom <= innerHeight && box.left >= 0 && box.right <= innerWidth;
  }

  function goToDecider(block) {
    const lit = document.querySelector('.decides.pair, .decides.put') || document.querySelector('.decides') || document.querySelector('.under');
    const target = lit || [...document.querySelectorAll('.word.end')].pop();
    if (!target || (block === 'nearest' && inSight(target))) return;
    target.scrollIntoView({ block, inline: 'nearest' });
  }

  // ---- switches, keys, address

  function measure() {
    document.documentElement.style.setProperty('--bar', document.querySelector('.bar').offsetHeight + 'px');
  }

  function reveal(node) {
    for (let d = node.querySelector('details'); d; d = d.parentNode.closest('details')) d.open = true;
    node.scrollIntoView({ block: 'center', inline: 'nearest' });
    (node.querySelector('summary') || node).focus({ preventScroll: true });
  }

  let changeAt = -1;
  function nextChange() {
    const changed = [...document.querySelectorAll('main .zero.changed, main .node.changed, main .free.changed')];
    changeAt = changed.length ? (changeAt + 1) % changed.length : -1;
    if (changeAt >= 0) reveal(changed[changeAt]);
  }

  function switchLayout() {
    const columns = body.classList.toggle('columns');
    body.classList.toggle('outline', !columns);
    measure();
  }

  let allOpen = false;
  function openAll() {
    allOpen = !allOpen;
    document.querySelectorAll('main details').forEach((d) => { d.open = allOpen || d.matches('.tree > .branch > .below'); });
    one('all').textContent = allOpen ? 'Close all' : 'Open all';
  }

  function fromAddress() {
    const words = location.hash.slice(1);
    const node = /^[ab]\d+$/.test(words) && one(words);
    if (node) return reveal(node);
    const found = new URLSearchParams(words.replace(/\+/g, '%2B'));
    if (found.has('only')) { one('only').checked = true; body.classList.add('only'); }
    if (found.has('path')) input.value = found.get('path');
    if (input.value) ask(input.value, 'nearest');
  }

  function toAddress() {
    const address = input.value ? '#path=' + encodeURIComponent(input.value).replace(/%2F/g, '/') : location.pathname;
    try { history.replaceState(null, '', address); } catch (e) { /* some viewers forbid it */ }
  }

  input.addEventListener('input', () => { ask(input.value, 'nearest'); toAddress(); });
  one('form').addEventListener('submit', (event) => { event.preventDefault(); ask(input.value, 'center'); });
  if (follow) follow.addEventListener('change', () => ask(input.value, 'nearest'));
  one('only').addEventListener('change', (event) => body.classList.toggle('only', event.target.checked));
  one('layout').addEventListener('click', switchLayout);
  one('all').addEventListener('click', openAll);
  if (one('change')) one('change').addEventListener('click', nextChange);
  document.addEventListener('keydown', (event) => {
    if (event.key === 'Escape') { input.value = ''; ask(''); toAddress(); input.focus(); }
    if (event.target === input || event.ctrlKey || event.metaKey || event.altKey) return;
    if (event.key === '/') { event.preventDefault(); input.focus(); input.select(); }
    if (event.key === 'l') switchLayout();
    if (event.key === 'o') openAll();
    if (event.key === 'n' && one('change')) nextChange();
  });
  window.addEventListener('hashchange', fromAddress);
  window.addEventListener('resize', measure);
  measure();
  fromAddress();
})();
