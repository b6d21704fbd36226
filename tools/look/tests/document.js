// A small document for node, in which a page's script can be tried without a browser: reads lines of a page's file, a tab and a path, types the
// path into the page's field and writes what is shown, in lines of file, path, kind and text. Relies on how page.rs and card.rs write markup.
'use strict';
const fs = require('fs');

const VOID = new Set(['meta', 'input', 'option', 'br']);

class Element {
  constructor(tag, attributes = {}) {
    Object.assign(this, { tag, attributes, childNodes: [], parentNode: null, listeners: {}, style: { setProperty() {} }, offsetHeight: 0 });
    this.dataset = {};
    for (const [name, value] of Object.entries(attributes)) if (name.startsWith('data-')) this.dataset[name.slice(5)] = value;
    this.className = attributes.class || '';
    this.classList = {
      contains: (name) => this.names.has(name),
      add: (...names) => names.forEach((name) => this.names.add(name)),
      remove: (...names) => names.forEach((name) => this.names.delete(name)),
      toggle: (name, on = !this.names.has(name)) => { if (on) this.names.add(name); else this.names.delete(name); return on; },
    };
  }
  set className(text) { this.names = new Set(text.split(' ').filter(Boolean)); }
  get id() { return this.attributes.id; }
  get children() { return this.childNodes.filter((child) => child instanceof Element); }
  get value() { return this.attributes.value || ''; }
  set value(text) { this.attributes.value = text; }
  get checked() { return 'checked' in this.attributes; }
  get hidden() { return 'hidden' in this.attributes; }
  set hidden(on) { this.flag('hidden', on); }
  get open() { return 'open' in this.attributes; }
  set open(on) { this.flag('open', on); }
  flag(name, on) { if (on) this.attributes[name] = ''; else delete this.attributes[name]; }
  getAttribute(name) { return name in this.attributes ? this.attributes[name] : null; }
  get textContent() { return this.childNodes.map((child) => (typeof child === 'string' ? child : child.textContent)).join(''); }
  set textContent(text) { this.childNodes = [text]; }
  append(...parts) {
    for (const part of parts) {
      if (part instanceof Element) part.parentNode = this;
      this.childNodes.push(part);
    }
  }
  replaceChildren() { this.childNodes = []; }
  cloneNode() {
    const copy = new Element(this.tag, { ...this.attributes, class: [...this.names].join(' ') });
    copy.append(...this.childNodes.map((child) => (typeof child === 'string' ? child : child.cloneNode())));
    return copy;
  }
  addEventListener(name, listener) { this.listeners[name] = listener; }
  send(name) { this.listeners[name]({ target: this, preventDefault() {} }); }
  getBoundingClientRect() { return { top: 0, bottom: 0, left: 0, right: 0 }; }
  scrollIntoView() { Element.shown = this; }
  focus() {}
  all(found = []) {
    for (const child of this.childNodes) if (child instanceof Element) { found.push(child); child.all(found); }
    return found;
  }
  matches(selectors, scope = null) { return chainsOf(selectors).some((chain) => matchesChain(this, chain, chain.length - 1, scope)); }
  querySelectorAll(selectors) { return this.all().filter((element) => element.matches(selectors, this)); }
  querySelector(selectors) { return this.querySelectorAll(selectors)[0] || null; }
  closest(selectors) { return this.matches(selectors) ? this : this.parentNode && this.parentNode.closest(selectors); }
}

// A selector list as chains of parts: a combinator, or a tag, classes, :not(.class) and [attribute] that are all asked for.
const chains = new Map();
function chainsOf(selectors) {
  if (!chains.has(selectors)) chains.set(selectors, selectors.split(',').map((selector) => selector.trim().split(/\s+/).map(partOf)));
  return chains.get(selectors);
}

function partOf(part) {
  if (part === '>' || part === ':scope') return part;
  const [, tag, rest] = /^([a-z]*)(.*)$/.exec(part);
  const asked = rest.match(/:not\(\.[\w-]+\)|\.[\w-]+|\[[\w-]+\]/g) || [];
  if (asked.join('') !== rest) throw new Error('selector ' + part);
  const of = (mark, from, to) => asked.filter((one) => one.startsWith(mark)).map((one) => one.slice(from, to));
  return { tag, classes: of('.', 1), without: of(':', 6, -1), attributes: of('[', 1, -1) };
}

function matchesOne(element, part, scope) {
  if (part === ':scope') return element === scope;
  return (!part.tag || part.tag === element.tag) && part.classes.every((name) => element.names.has(name))
    && !part.without.some((name) => element.names.has(name)) && part.attributes.every((name) => name in element.attributes);
}

// Whether an element matches the chain up to its part at this place.
function matchesChain(element, chain, at, scope) {
  if (!element || !matchesOne(element, chain[at], scope)) return false;
  if (at === 0) return true;
  if (chain[at - 1] === '>') return matchesChain(element.parentNode, chain, at - 2, scope);
  for (let above = element.parentNode; above; above = above.parentNode) if (matchesChain(above, chain, at - 1, scope)) return true;
  return false;
}

const plain = (text) => text.replace(/&lt;/g, '<').replace(/&gt;/g, '>').replace(/&quot;/g, '"').replace(/&#39;/g, "'").replace(/&amp;/g, '&');

function attributesOf(text) {
  const found = {};
  for (const [, name, quoted, bare] of text.matchAll(/([\w-]+)(?:=(?:"([^"]*)"|([^\s>]+)))?/g)) found[name] = plain(quoted ?? bare ?? '');
  return found;
}

// The markup as elements, and the text of its script.
function parse(markup) {
  const script = /<script>([^]*)<\/script>/.exec(markup)[1];
  const bare = markup.replace(/<(style|script)>[^]*?<\/\1>/g, '').replace(/<!DOCTYPE[^>]*>/, '');
  const root = new Element('root');
  let at = root;
  for (const [, end, tag, attributes, text] of bare.matchAll(/<(\/?)([a-z0-9]+)((?:"[^"]*"|[^>"])*)>|([^<]+)/g)) {
    if (text !== undefined) { at.append(plain(text)); continue; }
    if (end && at.tag !== tag) throw new Error('</' + tag + '> ends ' + at.tag);
    if (end) { at = at.parentNode; continue; }
    const element = new Element(tag, attributesOf(attributes));
    at.append(element);
    if (!VOID.has(tag)) at = element;
  }
  if (at !== root) throw new Error(at.tag + ' does not end');
  return { root, script };
}

function documentOf(root) {
  const ids = new Map(root.all().map((element) => [element.id, element]));
  return Object.assign(root, {
    body: root.querySelector('body'),
    documentElement: root.querySelector('html'),
    getElementById: (id) => ids.get(id) || null,
    createElement: (tag) => new Element(tag),
  });
}

const text = (element) => (element ? element.textContent.replace(/\s+/g, ' ').trim() : '');

// What the page shows for the path in its field: kinds and texts.
function shown(document) {
  const told = [];
  for (const id of ['a', 'b'].filter((side) => document.getElementById('answer-' + side))) {
    const answer = document.getElementById('answer-' + id);
    told.push(['answer-' + id, answer.children.filter((part) => part.tag === 'p').map(text).join(' ')]);
    answer.querySelectorAll('.share').slice(1).forEach((line) => told.push(['share-' + id, text(line)]));
  }
  document.querySelectorAll('.key li').filter((line) => !line.hidden).forEach((line) => told.push(['key', text(line)]));
  return told;
}

function open(file) {
  const { root, script } = parse(fs.readFileSync(file, 'utf8'));
  const document = documentOf(root);
  const window = { addEventListener() {} };
  const location = { hash: '', pathname: '' }, history = { replaceState() {} };
  new Function('document', 'window', 'location', 'history', 'innerHeight', 'innerWidth', script)(document, window, location, history, 0, 0);
  return document;
}

// Where `Next change` goes, once round: the names of nodes with their image's.
function changes(document) {
  const button = document.getElementById('change'), names = [];
  const press = () => { button.send('click'); return text(Element.shown.querySelector('.name')) + ' ' + Element.shown.closest('section').id; };
  for (let name = button ? press() : ''; name && !names.includes(name); name = press()) names.push(name);
  return names.map((name) => ['change', name]);
}

const say = (file, path, told) => told.forEach(([kind, words]) => console.log([file, path, kind, words].join('\t')));
let document = null, opened = '';
for (const [file, path] of fs.readFileSync(0, 'utf8').split('\n').filter(Boolean).map((line) => line.split('\t'))) {
  if (file !== opened) {
    document = open(file);
    opened = file;
    say(file, '', [...shown(document), ...changes(document)]);
  }
  const input = document.getElementById('path');
  input.value = path;
  input.send('input');
  say(file, path, shown(document));
}
