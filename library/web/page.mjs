// The page: the files that are chosen, the questions to the worker, and what is shown of its answers.
'use strict';

const $ = id => document.getElementById(id);
const data = id => JSON.parse($(id).textContent);
const asBytes = text => Uint8Array.from(atob(text), byte => byte.charCodeAt(0));

// Makes an element. What is undefined is left out.
function element(name, properties = {}, ...inside) {
  const made = Object.assign(document.createElement(name), properties);
  made.append(...inside.filter(part => part !== undefined));
  return made;
}

const number = count => count.toLocaleString('en-US');
const counted = (count, noun) => `${number(count)} ${noun}${count === 1 ? '' : 's'}`;

function sizeText(bytes) {
  if (bytes < 1024) return counted(bytes, 'byte');
  const unit = bytes < 2 ** 20 ? 10 : bytes < 2 ** 30 ? 20 : 30;
  return `${(bytes / 2 ** unit).toFixed(1)} ${{ 10: 'KB', 20: 'MB', 30: 'GB' }[unit]}`;
}

// ---- The worker, and the questions that it has not answered

const MODULE = asBytes($('module').textContent);
const CODE = URL.createObjectURL(new Blob([$('worker').textContent], { type: 'text/javascript' }));
// How long a question takes before it is told, in milliseconds.
const PATIENCE = 250;

class Refusal extends Error {
  constructor({ text, refused }) {
    super(refused ? refused.text : text);
    this.number = refused ? refused.number : null;
  }
}

class Cancelled extends Error {}

const asked = {
  worker: null,
  last: 0,
  waiting: new Map(),

  start() {
    this.worker = new Worker(CODE);
    this.worker.onmessage = ({ data }) => this.hear(data);
    this.worker.onerror = event => this.stop(new Refusal({ text: `The worker ended: ${event.message}` }));
    this.worker.postMessage({ module: MODULE });
    slots.forEach((slot, at) => slot && this.put(at, slot.file));
  },

  // Ends the worker, and all that it has not answered. A new one begins with the files.
  stop(why) {
    this.worker.terminate();
    const waiting = [...this.waiting.values()];
    this.waiting.clear();
    this.start();
    waiting.forEach(({ fail }) => fail(why));
    showBusy();
  },

  put(at, file) {
    this.worker.postMessage({ put: [at, file] });
  },

  ask(name, question) {
    return new Promise((done, fail) => {
      const id = ++this.last;
      this.waiting.set(id, { done, fail, since: performance.now() });
      this.worker.postMessage({ id, name, question });
      setTimeout(showBusy, PATIENCE);
    });
  },

  hear({ progress, id, answer, error }) {
    if (progress !== undefined) {
      $('progress').textContent = progress;
      return;
    }
    const one = this.waiting.get(id);
    if (!one) return;
    this.waiting.delete(id);
    showBusy();
    if (error) one.fail(new Refusal(error));
    else one.done(answer);
    // What no call refuses leaves a module behind of which nothing is known.
    if (error && !error.refused) this.stop(new Cancelled());
  },
};

// Tells what the worker does, and for how long.
function showBusy() {
  const since = Math.min(...[...asked.waiting.values()].map(one => one.since));
  const time = performance.now() - since;
  $('busy').hidden = !(time >= PATIENCE - 5);
  if ($('busy').hidden) return;
  $('time').textContent = `${(time / 1000).toFixed(0)} s`;
  clearTimeout(showBusy.next);
  showBusy.next = setTimeout(showBusy, 500);
}

// ---- The files

const slots = [null, null];
const count = () => slots.filter(slot => slot).length;

// Takes files that were dropped or chosen: for a place, or for those that are free.
async function take(given, where) {
  hideNotice();
  const files = [...given].slice(0, 2);
  let taken = 0;
  for (const [which, file] of files.entries()) {
    const wanted = files.length === 1 ? where ?? 1 : which;
    taken += await open(slots[0] ? wanted : 0, file);
  }
  if (given.length > 2 && taken === 2) notice('Two files are compared at a time: the first two are shown.');
  if (taken) showFiles(count() === 2 ? 'changes' : 'types');
}

// Opens a file at a place. One that is refused leaves the file that was there. Returns whether it was taken.
async function open(at, file) {
  asked.put(at, file);
  try {
    const facts = await asked.ask('facts', { at });
    if (!facts.refused) {
      slots[at] = { file, facts };
      return true;
    }
    refuse(file, facts.refused, facts);
  } catch (error) {
    if (!(error instanceof Cancelled)) refuse(file, { number: error.number, text: error.message }, {});
  }
  asked.put(at, slots[at] && slots[at].file);
  return false;
}

function remove(at) {
  slots[at] = null;
  if (at === 0 && slots[1]) slots.reverse();
  slots.forEach((slot, place) => asked.put(place, slot && slot.file));
  showFiles('types');
}

function swap() {
  slots.reverse();
  slots.forEach((slot, place) => asked.put(place, slot.file));
  showFiles(view.kind);
}

function fact(name, value, type) {
  return element('div', {}, element('dt', { textContent: name }),
    element('dd', { textContent: value, className: type ?? '' }));
}

function factsOf({ guid, age, layout, counts }) {
  return [
    ...(guid ? [fact('GUID', guid, 'mono'), fact('age', age)] : []),
    ...(layout ? [fact('block size', number(layout.blockSize)), fact('streams', number(layout.sizes.length))] : []),
    ...(counts ? [fact('types', number(counts.records)), fact('bytes of types', number(counts.bytes))] : []),
    ...(counts ? [fact('levels', number(counts.levels))] : []),
  ];
}

function cardOf({ file, facts }, at) {
  const plain = (textContent, label, onclick) =>
    element('button', { type: 'button', className: 'plain', textContent, title: label, ariaLabel: label, onclick });
  const head = element('h2', {},
    element('span', { className: `letter ${'ab'[at]}`, textContent: 'AB'[at] }),
    element('span', { className: 'name', textContent: file.name, title: file.name }),
    element('span', { className: 'small', textContent: sizeText(facts.size) }),
    at === 0 && count() === 2 ? plain('⇄', 'Swap the files', swap) : undefined,
    plain('✕', `Take ${file.name} away`, () => remove(at)));
  const card = element('div', { className: 'card' }, head, element('dl', {}, ...factsOf(facts)));
  card.dataset.place = at;
  return card;
}

function addCard() {
  const card = element('div', { className: 'add' }, 'Drop a second file to compare',
    element('button', { type: 'button', textContent: 'Choose', onclick: () => choose(1) }));
  card.dataset.place = 1;
  return card;
}

function showFiles(kind) {
  document.body.dataset.count = count();
  $('welcome').hidden = count() > 0;
  $('files').hidden = $('work').hidden = count() === 0;
  $('files').replaceChildren(...slots.map((slot, at) => slot ? cardOf(slot, at) : addCard()));
  $('merged').replaceChildren();
  closeDetail();
  if (count() > 0) show({ kind, at: Math.min(view.at, count() - 1), queries: {} });
}

// ---- What is refused

function notice(title, ...lines) {
  const text = element('div', { className: 'text' }, ...[title, ...lines].map(line => element('p', {}, line)));
  const close = element('button', { type: 'button', textContent: 'Close', onclick: hideNotice });
  $('notice').replaceChildren(element('div', { className: 'row' }, text, close));
  $('notice').hidden = false;
}

function hideNotice() {
  $('notice').hidden = true;
}

const FAULTS = data('faults');

// Says why a file was refused, and what was read of it before.
function refuse(file, { number, text }, facts) {
  const title = element('span', {}, element('strong', { textContent: file.name }),
    number === null ? ' was not opened: ' : ' was refused: ', element('code', { textContent: text }),
    '. Nothing of it was kept.');
  const told = factsOf(facts).map(one => one.textContent.replace(/^(GUID|block size|streams|age)/, '$1 ')).join(', ');
  notice(title, ...(FAULTS[number] ?? []), ...(told ? [`Before that was read: ${told}.`] : []));
}

// Tells an error of a question. Returns what stands in place of the answer.
function told(error) {
  if (error instanceof Cancelled) return 'This was cancelled. Choose it once more to begin again.';
  const lines = error.number === 33 ? ['The browser has no more memory for this page.'] : FAULTS[error.number] ?? [];
  notice(element('span', {}, 'No answer: ', element('code', { textContent: error.message })), ...lines);
  return 'There is no answer.';
}

// ---- The table: rows that are seen are made, whatever their number

const ROW = 22;
// Browsers limit the height of an element. Where the rows are higher together, places of the scroll bar are mapped.
const HIGHEST = 8e6;
const PAGE = 128, PAGES = 40, AROUND = 6;

const table = {
  list: null,
  length: 0,
  top: 0,
  current: -1,
  pages: new Map(),
  shown: new Map(),
  loading: false,

  set(list, length) {
    Object.assign(this, { list, length, top: 0, current: length ? 0 : -1, pages: new Map() });
    this.clear();
    $('space').style.height = `${Math.min(length * ROW, HIGHEST)}px`;
    $('list').ariaRowCount = length;
    $('list').scrollTop = $('list').scrollLeft = 0;
    this.draw();
  },

  clear() {
    this.shown.clear();
    $('rows').replaceChildren();
  },

  get height() {
    return $('list').clientHeight;
  },

  get isMapped() {
    return this.length * ROW > HIGHEST;
  },

  // The greatest places: of the rows, and of the scroll bar.
  get ends() {
    return [Math.max(0, this.length * ROW - this.height), Math.max(1, $('list').scrollHeight - this.height)];
  },

  scrolled() {
    const place = $('list').scrollTop, [rows, bar] = this.ends;
    if (!this.isMapped) this.top = place;
    else if (Math.abs(place - this.top / rows * bar) > 1) this.top = Math.min(rows, place / bar * rows);
    this.draw();
  },

  moveTo(top) {
    const [rows, bar] = this.ends;
    this.top = Math.max(0, Math.min(rows, top));
    $('list').scrollTop = this.isMapped ? this.top / rows * bar : this.top;
    this.draw();
  },

  // Makes a row the current one, and shows it.
  go(row) {
    if (this.length === 0) return;
    this.current = Math.max(0, Math.min(this.length - 1, row));
    const at = this.current * ROW;
    if (at < this.top) this.moveTo(at);
    else if (at + ROW > this.top + this.height) this.moveTo(at + ROW - this.height);
    else this.draw();
  },

  cells(row) {
    const page = this.pages.get(Math.floor(row / PAGE));
    return page && page[row % PAGE];
  },

  draw() {
    const first = Math.max(0, Math.floor(this.top / ROW) - AROUND);
    const last = Math.min(this.length, Math.ceil((this.top + this.height) / ROW) + AROUND);
    const base = this.isMapped ? $('list').scrollTop - this.top : 0;
    for (const [row, line] of this.shown) {
      if (row >= first && row < last) continue;
      line.remove();
      this.shown.delete(row);
    }
    for (let row = first; row < last; row++) this.place(row, base);
    const active = this.shown.get(this.current);
    if (active) $('list').setAttribute('aria-activedescendant', active.id);
    else $('list').removeAttribute('aria-activedescendant');
    this.load(first, last);
  },

  place(row, base) {
    const cells = this.cells(row);
    let line = this.shown.get(row);
    if (!line || (cells && !line.filled)) {
      const made = lineOf(row, cells);
      if (line) line.replaceWith(made);
      else $('rows').append(made);
      this.shown.set(row, line = made);
    }
    line.style.top = `${base + row * ROW}px`;
    line.ariaSelected = row === this.current;
  },

  // Asks for the first page that is seen and not there.
  async load(first, last) {
    if (this.loading || first >= last) return;
    let page = Math.floor(first / PAGE);
    while (page * PAGE < last && this.pages.has(page)) page++;
    if (page * PAGE >= last) return;
    const { list } = this;
    this.loading = true;
    try {
      const rows = await asked.ask('rows', { list, from: page * PAGE, count: PAGE });
      this.loading = false;
      if (list === this.list) this.keep(page, rows);
      this.draw();
    } catch (error) {
      this.loading = false;
      if (!(error instanceof Cancelled)) told(error);
    }
  },

  keep(page, rows) {
    this.pages.set(page, rows);
    if (this.pages.size > PAGES) this.pages.delete(this.pages.keys().next().value);
  },
};

function lineOf(row, cells) {
  const line = element('div', { id: `row-${row}`, className: 'line', role: 'row', ariaRowIndex: row + 1 });
  line.filled = Boolean(cells);
  line.dataset.row = row;
  line.append(...(cells ?? ['…']).map((text, at) =>
    element('span', { textContent: text, role: 'gridcell', className: /^LF_/.test(text) && at < 3 ? 'leaf' : '' })));
  if (cells) line.className += ` ${colourOf(cells[0])}`;
  return line;
}

// What the first bytes of a line tell, as docs/WORDS.md says.
function colourOf(text) {
  if (view.kind === 'members') return text[0] === ' ' ? '' : 'top';
  if (view.kind !== 'changes' && view.kind !== 'diff') return '';
  const sign = text[0] === ' ' ? text[2] : text[0];
  const isHead = text[0] !== ' ' && text.length > 2 && text[2] !== ' ';
  return { '~': 'changed', '-': 'gone', '+': 'came' }[sign] + (isHead ? ' top' : '');
}

// ---- What is shown

const VIEWS = {
  changes: { title: 'What changed', search: 'Search names and members', pair: true },
  diff: { title: 'Only in one', search: 'Search types', columns: ['', 'index', 'kind', 'size', 'name'], pair: true },
  merge: { title: 'Merge', pair: true },
  types: { title: 'Types', search: 'Search: a name, 0x1000, LF_STRUCTURE', columns: ['index', 'kind', 'size', 'name'] },
  members: { title: 'Structures', search: 'Search names and members' },
  streams: { title: 'Streams', search: 'Search streams', columns: ['stream', 'bytes', 'blocks', 'name'] },
};
const EMPTY = {
  changes: 'Both files define the same structures, with the same members.',
  diff: 'Both files have the same types.',
  members: 'This file defines no structure.', types: 'This file has no types.', streams: 'This file has no streams.',
};

let view = { kind: 'types', at: 0, queries: {} };

// Puts buttons in place of others. Where one of those had the focus, the chosen one has it then.
function putButtons(group, buttons, chosen) {
  const isFocused = group.contains(document.activeElement);
  group.replaceChildren(...buttons);
  if (isFocused && buttons[chosen]) buttons[chosen].focus();
}

function tabs() {
  const kinds = Object.keys(VIEWS).filter(kind => count() === 2 || !VIEWS[kind].pair);
  const buttons = kinds.map(kind => element('button', {
    type: 'button', id: `tab-${kind}`, role: 'tab', textContent: VIEWS[kind].title, ariaSelected: kind === view.kind,
    tabIndex: kind === view.kind ? 0 : -1, onclick: () => choosing({ kind }),
  }));
  for (const tab of buttons) tab.setAttribute('aria-controls', tab.id === 'tab-merge' ? 'merge' : 'panel');
  putButtons($('tabs'), buttons, kinds.indexOf(view.kind));
}

function sides() {
  $('sides').hidden = count() < 2 || VIEWS[view.kind].pair;
  const buttons = [0, 1].map(at => element('button', {
    type: 'button', role: 'radio', ariaChecked: at === view.at, ariaLabel: `File ${'AB'[at]}`, textContent: 'AB'[at],
    onclick: () => choosing({ at }),
  }));
  putButtons($('sides'), buttons, view.at);
}

// What a hand chooses takes away the notice of what was before.
function choosing(change) {
  hideNotice();
  show(change);
}

// Shows another kind, another file, or what another search finds.
function show(change) {
  view = { ...view, ...change };
  const { title, search, columns = [] } = VIEWS[view.kind];
  tabs();
  sides();
  $('panel').hidden = view.kind === 'merge';
  $('merge').hidden = view.kind !== 'merge';
  if (view.kind === 'merge') return;
  $('panel').setAttribute('aria-labelledby', `tab-${view.kind}`);
  $('panel').className = view.kind;
  $('search').placeholder = `${search}  ( / )`;
  $('search').value = view.queries[view.kind] ?? '';
  $('origins-label').hidden = view.kind !== 'diff';
  $('save').hidden = view.kind === 'streams';
  $('list').ariaLabel = title;
  $('head').hidden = columns.length === 0;
  $('head').replaceChildren(...columns.map(textContent => element('span', { textContent })));
  if (view.kind !== 'types' && view.kind !== 'diff') closeDetail();
  fill();
}

// Fills the table. An answer that comes after another choice is left.
async function fill() {
  const { kind, at } = view;
  const list = { kind, at, query: $('search').value.trim(), origins: kind === 'diff' && $('origins').checked };
  fill.last = list;
  table.set(list, 0);
  $('empty').hidden = true;
  $('count').textContent = '';
  $('save').disabled = true;
  let text;
  try {
    const { length, total } = await asked.ask('list', list);
    if (fill.last !== list) return;
    text = length === 0 && (list.query || list.origins ? total > 0 && 'Nothing fits.' : false);
    $('count').textContent = countText(length, total);
    $('save').disabled = length === 0;
    if (length === 0) text ||= EMPTY[list.kind];
    table.set(list, length);
  } catch (error) {
    if (fill.last !== list) return;
    text = told(error);
  }
  $('empty').textContent = text || '';
  $('empty').hidden = !text;
}

function countText(length, total) {
  const noun = { types: 'type', diff: 'type', streams: 'stream' }[view.kind] ?? 'line';
  return length === total ? counted(length, noun) : `${number(length)} of ${counted(total, noun)}`;
}

function save(blob, name) {
  const href = URL.createObjectURL(blob);
  element('a', { href, download: name }).click();
  setTimeout(() => URL.revokeObjectURL(href), 60000);
}

async function saveText() {
  const { list } = table;
  try {
    const pair = VIEWS[list.kind].pair;
    save(await asked.ask('text', { list }), `${pair ? 'both' : slots[list.at].file.name}.${list.kind}.txt`);
  } catch (error) {
    told(error);
  }
}

// ---- One type

function closeDetail() {
  $('detail').hidden = true;
}

async function openRow(row) {
  const cells = table.cells(row);
  if (!cells || (view.kind !== 'types' && view.kind !== 'diff')) return;
  const at = view.kind === 'diff' ? '-+'.indexOf(cells[0]) : view.at;
  await openType(at, Number(cells[view.kind === 'diff' ? 1 : 0]));
}

async function openType(at, index) {
  try {
    showDetail(at, await asked.ask('detail', { at, index }));
  } catch (error) {
    told(error);
  }
}

function showDetail(at, { cells: [index, leaf, size, name], named, bytes, text }) {
  const close = element('button', { type: 'button', className: 'close', textContent: '✕', ariaLabel: 'Close' });
  close.onclick = leaveDetail;
  const part = (title, inside) => [element('h3', { textContent: title }), inside];
  const places = named.map(({ place, index, cells }) => {
    const number = `0x${index.toString(16)}`;
    const textContent = cells && [number, cells[1], cells[3]].filter(Boolean).join(' ');
    const other = cells && element('button', { type: 'button', textContent });
    if (other) other.onclick = () => goTo(at, index);
    return element('li', {}, other ?? `${number} simple type`, ` at ${place}`);
  });
  $('detail').replaceChildren(
    element('h2', {}, element('span', { textContent: `${index} ${leaf}` }), close),
    ...(name ? [element('pre', { textContent: name })] : []),
    ...(text ? part('What has this name', element('pre', { textContent: text })) : []),
    ...(named.length ? part('Names these types', element('ul', {}, ...places)) : []),
    ...part(counted(Number(size), 'byte'), element('pre', { textContent: bytes })));
  $('detail').hidden = false;
  $('detail').scrollTop = 0;
  table.draw();
}

function leaveDetail() {
  closeDetail();
  $('list').focus();
  table.draw();
}

// Shows another type of a file, also where a search hides it.
async function goTo(at, index) {
  if (view.kind !== 'types' || view.at !== at || $('search').value) {
    show({ kind: 'types', at, queries: { ...view.queries, types: '' } });
    await asked.ask('list', fill.last);
  }
  await openType(at, index);
  table.go(await asked.ask('place', { list: table.list, index }));
}

// ---- Merging

function randomGuid() {
  const bytes = crypto.getRandomValues(new Uint8Array(16));
  bytes[6] = 0x40 | bytes[6] & 0x0f;
  bytes[8] = 0x80 | bytes[8] & 0x3f;
  $('guid').value = Array.from(bytes, byte => byte.toString(16).padStart(2, '0')).join('')
    .replace(/(.{8})(.{4})(.{4})(.{4})/, '$1-$2-$3-$4-');
  checkGuid();
}

const digitsOf = guid => guid.toLowerCase().replace(/[^0-9a-f]/g, '');

// Says what is wrong with the GUID. Returns whether a merge can have it.
function checkGuid() {
  const given = $('guid').value.trim();
  const fits = /^\{?[0-9a-f]{8}(-?)[0-9a-f]{4}\1[0-9a-f]{4}\1[0-9a-f]{4}\1[0-9a-f]{12}\}?$/i.test(given);
  const isTaken = slots.some(slot => slot && digitsOf(slot.facts.guid) === digitsOf(given));
  const wrong = !fits ? 'A GUID has 32 hexadecimal digits.' : isTaken ? 'This is the GUID of an input.' : '';
  $('guid').setCustomValidity(wrong);
}

async function merge(event) {
  event.preventDefault();
  const question = { guid: digitsOf($('guid').value), age: Number($('age').value) };
  $('merged').replaceChildren();
  try {
    const { file, size, types, bytes } = await asked.ask('merge', question);
    const href = URL.createObjectURL(file);
    const link = element('a', { href, download: 'merged.pdb', textContent: 'Save merged.pdb' });
    const report = [counted(types, 'type'), `${counted(bytes, 'byte')} of types`, `${counted(size, 'byte')} in all`];
    $('merged').replaceChildren(element('p', { textContent: `${report.join(', ')}.` }), element('p', {}, link));
  } catch (error) {
    $('merged').replaceChildren(element('p', { className: 'bad', textContent: told(error) }));
  }
}

// ---- Hands and keys

function choose(where) {
  $('chooser').multiple = where === undefined;
  $('chooser').onchange = () => {
    const files = [...$('chooser').files];
    $('chooser').value = '';
    take(files, where);
  };
  $('chooser').click();
}

function placeUnder(event) {
  const card = event.target instanceof Element && event.target.closest('[data-place]');
  return card || null;
}

function drag(event, over) {
  event.preventDefault();
  document.body.classList.toggle('over', over);
  for (const card of $('files').children) card.classList.toggle('over', over && card === placeUnder(event));
}

function drop(event) {
  drag(event, false);
  const card = placeUnder(event);
  take(event.dataTransfer.files, card ? Number(card.dataset.place) : undefined);
}

function keyInTable(event) {
  const page = Math.max(1, Math.floor(table.height / ROW) - 1);
  const moves = { ArrowDown: 1, ArrowUp: -1, PageDown: page, PageUp: -page, Home: -Infinity, End: Infinity };
  if (event.key in moves) {
    const row = table.current + moves[event.key];
    table.go(event.key === 'Home' ? 0 : event.key === 'End' ? table.length - 1 : row);
  } else if (event.key === 'Enter') {
    openRow(table.current);
  } else {
    return;
  }
  event.preventDefault();
}

function keyInTabs(event) {
  const all = [...$('tabs').children], at = all.findIndex(tab => tab.tabIndex === 0);
  const to = { ArrowRight: at + 1, ArrowLeft: at - 1, Home: 0, End: all.length - 1 }[event.key];
  if (to === undefined) return;
  event.preventDefault();
  all[(to + all.length) % all.length].click();
}

function keyAnywhere(event) {
  const isTyping = /^(INPUT|TEXTAREA)$/.test(event.target.tagName);
  if (event.key === '/' && !isTyping && !$('work').hidden && !$('panel').hidden) {
    event.preventDefault();
    $('search').select();
    $('search').focus();
  } else if (event.key === 'Escape') {
    if (!$('busy').hidden) asked.stop(new Cancelled());
    else if (!$('detail').hidden) leaveDetail();
  }
}

function searched() {
  clearTimeout(searched.next);
  searched.next = setTimeout(() => {
    view.queries[view.kind] = $('search').value;
    fill();
  }, 150);
}

function wheel(event) {
  if (!table.isMapped || event.ctrlKey || event.deltaY === 0) return;
  event.preventDefault();
  table.moveTo(table.top + event.deltaY * [1, ROW, table.height][event.deltaMode]);
}

function begin() {
  asked.start();
  randomGuid();
  document.querySelector('[data-choose]').onclick = () => choose();
  $('example').onclick = () => take(data('examples').map(({ name, bytes }) => new File([asBytes(bytes)], name)));
  for (const name of ['dragenter', 'dragover']) document.addEventListener(name, event => drag(event, true));
  document.addEventListener('dragleave', event => event.relatedTarget || drag(event, false));
  document.addEventListener('drop', drop);
  document.addEventListener('keydown', keyAnywhere);
  $('tabs').onkeydown = keyInTabs;
  $('list').onkeydown = keyInTable;
  $('list').onscroll = () => table.scrolled();
  $('list').addEventListener('wheel', wheel, { passive: false });
  $('rows').onclick = event => {
    const line = event.target.closest('.line');
    if (!line) return;
    table.go(Number(line.dataset.row));
    openRow(table.current);
  };
  $('search').oninput = searched;
  $('search').onkeydown = event => {
    if (event.key === 'ArrowDown' || event.key === 'Enter') {
      event.preventDefault();
      $('list').focus();
    }
  };
  $('origins').onchange = fill;
  $('save').onclick = saveText;
  $('cancel').onclick = () => asked.stop(new Cancelled());
  $('guid').oninput = checkGuid;
  $('random').onclick = randomGuid;
  $('merge-form').onsubmit = merge;
  new ResizeObserver(() => table.draw()).observe($('list'));
}

begin();
