// The page: a tree of the parts of a value beside its octets. Only rows that are in view are in the document.
import { FORMS, base64Of, octetsOf } from './text.mjs';
import { IDENTIFIERS } from './identifiers.mjs';
import { Library, nameOf, reading, treeOf } from './decode.mjs';
import { editable, edited, tagEnd } from './encode.mjs';

const HEIGHT = 22;
const byId = (id) => document.getElementById(id);

function make(tag, name, text) {
  const made = document.createElement(tag);
  if (name) made.className = name;
  if (text !== undefined) made.textContent = text;
  return made;
}

// Rows of one height in a box that scrolls. `draw` makes the row of an index.
class Rows {
  constructor(box, draw) {
    Object.assign(this, { box, draw, count: 0, live: new Map() });
    box.addEventListener('scroll', () => this.show(), { passive: true });
    new ResizeObserver(() => this.show()).observe(box);
  }

  setCount(count) {
    this.count = count;
    this.box.firstElementChild.style.height = `${count * HEIGHT}px`;
  }

  show() {
    const { scrollTop, clientHeight } = this.box;
    const from = Math.max(0, Math.floor(scrollTop / HEIGHT) - 4);
    const to = Math.min(this.count, Math.ceil((scrollTop + clientHeight) / HEIGHT) + 4);
    for (const [i, row] of this.live) if (i < from || i >= to) this.remove(i, row);
    for (let i = from; i < to; i++) if (!this.live.has(i)) this.add(i);
  }

  add(i) {
    const row = this.draw(i);
    row.classList.add('row');
    row.style.top = `${i * HEIGHT}px`;
    this.live.set(i, row);
    this.box.append(row);
  }

  remove(i, row) {
    row.remove();
    this.live.delete(i);
  }

  redraw() {
    this.box.replaceChildren(this.box.firstElementChild);
    this.live.clear();
    this.show();
  }

  reveal(i) {
    const top = i * HEIGHT, { scrollTop, clientHeight } = this.box;
    if (top < scrollTop) this.box.scrollTop = top;
    else if (top + HEIGHT > scrollTop + clientHeight) this.box.scrollTop = top + HEIGHT - clientHeight;
    this.show();
  }
}

const state = { octets: new Uint8Array(), form: '', parts: [], shown: [], chosen: -1, hovered: -1, cursor: 0, turn: 0 };
let library;

// ---- parts as a tree

// Returns the parts whose parents show their children.
function shownOf(parts) {
  const shown = [];
  let hidden = Infinity;
  parts.forEach((part, i) => {
    if (part.level > hidden) return;
    hidden = part.isOpen ? Infinity : part.level;
    shown.push(i);
  });
  return shown;
}

function summary(part) {
  const count = part.children.length;
  return part.isConstructed ? `(${count})` : part.text ?? '';
}

const tree = new Rows(byId('tree'), (row) => {
  const i = state.shown[row], part = state.parts[i], made = make('div');
  made.id = `part-${i}`;
  made.setAttribute('role', 'treeitem');
  made.setAttribute('aria-level', part.level + 1);
  made.setAttribute('aria-setsize', part.kin.length);
  made.setAttribute('aria-posinset', part.index);
  made.setAttribute('aria-selected', i === state.chosen);
  if (part.children.length) made.setAttribute('aria-expanded', part.isOpen);
  made.classList.toggle('chosen', i === state.chosen);
  made.classList.toggle('hovered', i === state.hovered);
  made.classList.toggle('guessed', Boolean(part.isGuessed));
  made.classList.toggle('wrong', Boolean(part.fault));
  const twist = make('span', 'twist', part.children.length ? (part.isOpen ? '▾' : '▸') : ' ');
  twist.setAttribute('aria-hidden', 'true');
  made.append('  '.repeat(part.level), twist);
  if (!part.code) made.append(make('span', 'type', nameOf(part)), ' ');
  if (part.fault) made.append(`✗ ${part.fault}`);
  else made.append(make('span', part.isConstructed ? 'quiet' : '', summary(part)));
  return made;
});

// ---- octets

function classOf(at, part, hovered) {
  const names = ['octet'];
  if (part && at >= part.start && at < part.end)
    names.push(part.code ? 'contents' : at < tagEnd(state.octets, part) ? 'tag' : at < part.first ? 'length' : 'contents');
  if (hovered && at >= hovered.start && at < hovered.end) names.push('hovered');
  if (part?.fault && at >= part.first && at < part.end) names.push('wrong');
  if (at === state.cursor) names.push('cursor');
  return names.join(' ');
}

const rows = new Rows(byId('octets'), (row) => {
  const made = make('div'), from = 16 * row, text = make('span');
  const part = state.parts[state.chosen], hovered = state.parts[state.hovered];
  made.setAttribute('role', 'presentation');
  text.setAttribute('aria-hidden', 'true');
  made.append(make('span', 'quiet', from.toString(16).padStart(6, '0')), '  ');
  for (let at = from; at < from + 16; at++) {
    if (at % 16 === 8) made.append(' ');
    if (at >= state.octets.length) {
      made.append('   ');
      continue;
    }
    const octet = state.octets[at], name = classOf(at, part, hovered);
    const digits = make('span', name, octet.toString(16).padStart(2, '0'));
    digits.id = `octet-${at}`;
    digits.dataset.at = at;
    digits.setAttribute('role', 'option');
    digits.setAttribute('aria-selected', at === state.cursor);
    made.append(digits, ' ');
    const character = make('span', name, octet >= 32 && octet < 127 ? String.fromCharCode(octet) : '·');
    character.dataset.at = at;
    text.append(character);
  }
  made.append(' ', text);
  return made;
});

// ---- the selected part

function list() {
  state.shown = shownOf(state.parts);
  tree.setCount(state.shown.length);
}

function choose(i, { keepsCursor = false } = {}) {
  const part = state.parts[i];
  state.chosen = i;
  if (part && !keepsCursor) state.cursor = Math.min(part.start, Math.max(0, state.octets.length - 1));
  let isHidden = false;
  for (let above = part?.parent ?? -1; above >= 0; above = state.parts[above].parent) {
    isHidden ||= !state.parts[above].isOpen;
    state.parts[above].isOpen = true;
  }
  if (isHidden) list();
  tree.redraw();
  rows.redraw();
  if (part) {
    tree.reveal(state.shown.indexOf(i));
    rows.reveal(Math.floor(state.cursor / 16));
    byId('tree').setAttribute('aria-activedescendant', `part-${i}`);
  } else {
    byId('tree').removeAttribute('aria-activedescendant');
  }
  byId('octets').setAttribute('aria-activedescendant', `octet-${state.cursor}`);
  describe(part);
}

function describe(part) {
  const box = byId('detail');
  box.replaceChildren();
  if (!part) return;
  const path = [];
  for (let it = part; it; it = state.parts[it.parent]) path.unshift(nameOf(it) || 'fault');
  box.append(make('strong', '', path.join(' › ')));
  const tag = part.code ? 0 : tagEnd(state.octets, part) - part.start;
  const where = part.code
    ? `from octet ${part.start}, in contents that end before octet ${part.end}`
    : `from octet ${part.start}: ${tag} of the tag, ${part.first - part.start - tag} of the length, ${part.end - part.first} of the contents`;
  box.append(make('div', 'quiet', where));
  if (part.isGuessed) box.append(make('div', 'quiet', 'Octets or bits that can be read as DER. Whether they are meant so, the type says.'));
  const text = part.fault ? `✗ ${part.fault}` : summary(part);
  if (text && !part.isConstructed) box.append(make('code', part.fault ? 'wrong' : '', text));
  const value = editable(library, state.octets, part);
  if (value !== null) box.append(editor(value));
}

// Returns a field for another value of the selected part. Enter encodes it.
function editor(value) {
  const form = make('form'), label = make('label', '', 'Another value: '), field = make('input');
  Object.assign(field, { value, spellcheck: false, autocomplete: 'off' });
  label.append(field);
  form.append(label, make('button', '', 'Encode'));
  form.addEventListener('submit', async (event) => {
    event.preventDefault();
    try {
      const at = state.parts[state.chosen].start;
      const octets = edited(library, state.octets, state.parts, state.chosen, field.value);
      byId('value').value = FORMS.hexadecimal(octets);
      await decode(octets, 'edited');
      choose(partAt(Math.min(at, octets.length - 1)));
    } catch (error) {
      say(`✗ ${error.message}`, true);
    }
  });
  return form;
}

// Returns the deepest part at an octet.
function partAt(at) {
  let found = -1;
  state.parts.forEach((part, i) => {
    if (part.start <= at && at < part.end && (found < 0 || part.level >= state.parts[found].level)) found = i;
  });
  return found;
}

function turn(isOpen) {
  state.parts[state.chosen].isOpen = isOpen;
  list();
  choose(state.chosen);
}

// ---- reading a value

function say(text, isWrong = false) {
  byId('verdict').textContent = text;
  byId('verdict').className = isWrong ? 'wrong' : '';
}

// Reads octets, and lets the page answer in between. A later call ends this one.
async function decode(octets, form) {
  const turn = ++state.turn, steps = reading(library, octets, IDENTIFIERS);
  let step = steps.next();
  while (!step.done) {
    say(`${form}: ${step.value} elements are read…`);
    await new Promise((resolve) => setTimeout(resolve));
    if (turn !== state.turn) return;
    step = steps.next();
  }
  Object.assign(state, { octets, form, parts: treeOf(step.value), hovered: -1, cursor: 0 });
  list();
  rows.setCount(Math.ceil(octets.length / 16));
  const wrong = state.parts.findIndex((it) => it.fault);
  choose(wrong >= 0 ? wrong : state.parts.length ? 0 : -1);
  const count = `${form}: ${octets.length} octets, ${state.parts.length} elements.`;
  const fault = state.parts[wrong];
  say(fault ? `${count} ✗ At octet ${fault.first}: ${fault.fault}.` : count, wrong >= 0);
}

async function readText() {
  const text = byId('value').value;
  try {
    if (!text.trim()) {
      await decode(new Uint8Array(), '');
      say('Paste a value, or drop a file on the page. Nothing leaves it.');
      return;
    }
    const { octets, form } = octetsOf(text);
    await decode(octets, form);
  } catch (error) {
    say(`✗ ${error.message}`, true);
  }
}

async function take(file) {
  const octets = new Uint8Array(await file.arrayBuffer());
  if (octets.every((it) => it === 9 || it === 10 || it === 13 || (it >= 32 && it < 127))) {
    byId('value').value = new TextDecoder().decode(octets);
    await readText();
  } else {
    byId('value').value = '';
    await decode(octets, file.name);
  }
}

// ---- keys and pointers

function treeKey(event) {
  const row = state.shown.indexOf(state.chosen), part = state.parts[state.chosen];
  const many = Math.max(1, Math.floor(byId('tree').clientHeight / HEIGHT) - 1), last = state.shown.length - 1;
  const go = (to) => choose(state.shown[Math.max(0, Math.min(last, to))]);
  const isClosed = part && part.children.length && !part.isOpen, isOpen = part && part.children.length && part.isOpen;
  const keys = {
    ArrowDown: () => go(row + 1),
    ArrowUp: () => go(row - 1),
    PageDown: () => go(row + many),
    PageUp: () => go(row - many),
    Home: () => go(0),
    End: () => go(last),
    ArrowRight: () => (isClosed ? turn(true) : isOpen && choose(part.children[0])),
    ArrowLeft: () => (isOpen ? turn(false) : part.parent >= 0 && choose(part.parent)),
    Enter: () => (isClosed || isOpen) && turn(!part.isOpen),
  };
  if (!part || !keys[event.key] || event.ctrlKey || event.metaKey || event.altKey) return;
  event.preventDefault();
  keys[event.key]();
}

function octetKey(event) {
  const step = { ArrowRight: 1, ArrowLeft: -1, ArrowDown: 16, ArrowUp: -16, PageDown: 256, PageUp: -256, Home: -Infinity, End: Infinity }[event.key];
  if (step === undefined || !state.octets.length || event.ctrlKey || event.metaKey || event.altKey) return;
  event.preventDefault();
  state.cursor = Math.max(0, Math.min(state.octets.length - 1, state.cursor + step));
  choose(partAt(state.cursor), { keepsCursor: true });
}

function hover(i) {
  if (i === state.hovered) return;
  state.hovered = i;
  for (const row of byId('tree').querySelectorAll('.row')) row.classList.toggle('hovered', row.id === `part-${i}`);
  rows.redraw();
}

const rowOf = (event) => Number(event.target.closest?.('.row')?.id.match(/^part-(\d+)$/)?.[1] ?? -1);

byId('tree').addEventListener('keydown', treeKey);
byId('tree').addEventListener('mousemove', (event) => hover(rowOf(event)));
byId('tree').addEventListener('mouseleave', () => hover(-1));
byId('tree').addEventListener('click', (event) => {
  const i = rowOf(event);
  if (i < 0) return;
  if (event.target.classList.contains('twist') && state.parts[i].children.length) state.parts[i].isOpen = !state.parts[i].isOpen;
  list();
  choose(i);
});
byId('octets').addEventListener('keydown', octetKey);
byId('octets').addEventListener('click', (event) => {
  const at = event.target.dataset?.at;
  if (at === undefined) return;
  state.cursor = Number(at);
  choose(partAt(state.cursor), { keepsCursor: true });
});

let timer;
byId('value').addEventListener('input', () => {
  clearTimeout(timer);
  timer = setTimeout(readText, 150);
});
byId('open').addEventListener('click', () => byId('file').click());
byId('file').addEventListener('change', () => byId('file').files[0] && take(byId('file').files[0]));
addEventListener('dragover', (event) => {
  event.preventDefault();
  document.body.classList.add('dropping');
});
addEventListener('dragleave', (event) => event.relatedTarget || document.body.classList.remove('dropping'));
addEventListener('drop', (event) => {
  event.preventDefault();
  document.body.classList.remove('dropping');
  if (event.dataTransfer.files[0]) take(event.dataTransfer.files[0]);
});

async function copy(text, what) {
  try {
    await navigator.clipboard.writeText(text);
    say(`${what} is copied.`);
  } catch {
    say(`✗ The browser does not permit a copy.`, true);
  }
}

for (const name of Object.keys(FORMS)) byId('copy').append(new Option(name, name));
byId('copy').addEventListener('change', () => {
  const part = state.parts[state.chosen], form = byId('copy').value;
  byId('copy').value = '';
  if (part && form) copy(FORMS[form](state.octets.subarray(part.start, part.end)), `The part, as ${form},`);
});
// The value is in the fragment of the link, which a browser sends to nobody.
byId('link').addEventListener('click', () => {
  const value = base64Of(state.octets).replace(/\+/g, '-').replace(/\//g, '_').replace(/=+$/, '');
  copy(`${location.href.split('#')[0]}#${value}`, 'A link with the value');
});

async function readLink() {
  if (location.hash.length < 2) return;
  byId('value').value = location.hash.slice(1);
  await readText();
}
addEventListener('hashchange', readLink);

try {
  library = await Library.load(Uint8Array.from(atob(byId('library').textContent.trim()), (it) => it.charCodeAt(0)));
  await readText();
  await readLink();
} catch (error) {
  say(`✗ This browser cannot run the library: ${error.message}`, true);
}
document.documentElement.dataset.isReady = 'true';
