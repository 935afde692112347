// The worker of the page: it holds the files and the module, and answers the questions of the page. What it made
// once it keeps, until a file is taken away. The page ends it where an answer is no longer wanted.
import { PdbError, Pdbmerge, leaves, quoted } from './pdbmerge.mjs';

const FIRST = 0x1000;
const LINE_FEED = 0x0a, BLANK = 0x20;
// How many lines of a text are made at a time.
const PORTION = 10000;

const files = [null, null];
const made = new Map();
let loading, pdb;

// What `make` makes, once for each key. The key of what belongs to both files begins with `both`.
function once(key, make) {
  if (!made.has(key)) made.set(key, make());
  return made.get(key);
}

function put(at, file) {
  files[at] = file;
  for (const key of [...made.keys()])
    if (key.startsWith(`${at} `) || key.startsWith('both ')) made.delete(key);
}

function say(text) {
  postMessage({ progress: text });
}

// ---- What the files hold

// The bytes of each file that is there.
async function readFiles() {
  for (const at of [0, 1]) {
    if (files[at] === null || made.has(`${at} bytes`)) continue;
    say(`Reading ${files[at].name}`);
    try {
      made.set(`${at} bytes`, new Uint8Array(await files[at].arrayBuffer()));
    } catch (error) {
      // A browser that has no memory for the file says that it cannot be read.
      if (files[at].size > 2 ** 28) throw new PdbError(33, '33 Memory');
      throw error;
    }
  }
}

const bytesOf = at => made.get(`${at} bytes`);

function recordsOf(at) {
  return once(`${at} records`, () => {
    say(`Finding the types of ${files[at].name}`);
    return pdb.records(bytesOf(at));
  });
}

// Each byte of a name as the program prints it, in small letters.
const SPELLED = Array.from({ length: 256 }, (_, byte) =>
  new TextEncoder().encode(quoted(Uint8Array.of(byte)).slice(1, -1).toLowerCase()));

// The names of all records in one text in small letters, a line each, and where each line begins.
function namesOf(at) {
  return once(`${at} names`, () => {
    const records = recordsOf(at);
    say(`Reading the names of ${files[at].name}`);
    const { bytes, ends } = records.names(), starts = new Uint32Array(ends.length);
    const small = new Uint8Array(bytes.reduce((sum, byte) => sum + SPELLED[byte].length, ends.length));
    let from = 0, length = 0;
    ends.forEach((end, position) => {
      starts[position] = length;
      for (; from < end; from++) for (const byte of SPELLED[bytes[from]]) small[length++] = byte;
      small[length++] = LINE_FEED;
    });
    return { text: decode(small), starts };
  });
}

// ---- Texts of the library, by their lines

class Lines {
  constructor(bytes) {
    this.bytes = bytes;
    let count = 0;
    for (let at = bytes.indexOf(LINE_FEED); at >= 0; at = bytes.indexOf(LINE_FEED, at + 1)) count++;
    this.ends = new Uint32Array(count);
    for (let at = -1, line = 0; line < count; line++) this.ends[line] = at = bytes.indexOf(LINE_FEED, at + 1);
    this.length = count;
  }

  start(line) {
    return line === 0 ? 0 : this.ends[line - 1] + 1;
  }

  // The texts are ASCII.
  line(line) {
    return decode(this.bytes.subarray(this.start(line), this.ends[line]));
  }

  get lower() {
    this.small ??= decode(this.bytes).toLowerCase();
    return this.small;
  }
}

function decode(bytes) {
  return new TextDecoder('latin1').decode(bytes);
}

function membersOf(at) {
  return once(`${at} members`, () => {
    say(`Telling the structures of ${files[at].name}`);
    return new Lines(pdb.members(bytesOf(at)));
  });
}

function changesOfBoth() {
  return once('both changes', () => {
    say('Comparing structures and their members');
    return new Lines(pdb.changes(bytesOf(0), bytesOf(1)));
  });
}

function diffOfBoth() {
  return once('both diff', () => {
    say('Comparing types');
    return pdb.diff(bytesOf(0), bytesOf(1));
  });
}

// ---- Searches

// The positions at which a rising list of starts has those of a text that hold what is wanted.
function holding(text, starts, wanted) {
  const found = [];
  let position = 0;
  for (let at = text.indexOf(wanted); at >= 0; at = text.indexOf(wanted, at)) {
    let high = starts.length;
    while (high - position > 1) {
      const middle = position + high >> 1;
      if (starts[middle] <= at) position = middle;
      else high = middle;
    }
    found.push(position);
    if (high === starts.length) break;
    at = starts[high];
  }
  return found;
}

// The positions of the records that fit a search: the front of a type index, a leaf and a part of a name, or either.
function foundTypes(at, query) {
  const records = recordsOf(at);
  if (/^0x[0-9a-f]+$/i.test(query)) {
    const wanted = query.slice(2).toLowerCase();
    return positions(records.length, position => (FIRST + position).toString(16).startsWith(wanted));
  }
  const [, leaf, name] = /^(lf_\w*)?\s*(.*)$/is.exec(query);
  const fits = position => !leaf || (leaves.get(records.kind(position)) ?? '').startsWith(leaf.toUpperCase());
  if (!name) return positions(records.length, fits);
  const { text, starts } = namesOf(at);
  return holding(text, starts, name.toLowerCase()).filter(fits);
}

function positions(count, fits) {
  const found = [];
  for (let position = 0; position < count; position++) if (fits(position)) found.push(position);
  return found;
}

// The lines of the definitions in which a line holds what is wanted. A definition begins with a line that has no
// blank in front, or a sign and one blank.
function foundLines(lines, query, isHead) {
  const heads = headsOf(lines, isHead);
  const starts = Uint32Array.from(heads, line => lines.start(line));
  return holding(lines.lower, starts, query.toLowerCase()).flatMap(place => {
    const end = place + 1 < heads.length ? heads[place + 1] : lines.length;
    return Array.from({ length: end - heads[place] }, (_, at) => heads[place] + at);
  });
}

// The lines that begin a definition.
function headsOf(lines, isHead) {
  lines.heads ??= positions(lines.length, line => isHead(lines.bytes, lines.start(line)));
  return lines.heads;
}

const isHeadOfMembers = (bytes, at) => bytes[at] !== BLANK;
const isHeadOfChanges = (bytes, at) => bytes[at] !== BLANK && bytes[at + 2] !== BLANK;

// ---- Lists: how many rows there are, and the cells of each

function typeCells(record) {
  const name = record.name;
  return [`0x${record.index.toString(16)}`, record.leaf ?? `0x${record.kind.toString(16)}`, String(record.size),
    name === null ? '' : quoted(name)];
}

function listOfTypes({ at, query }) {
  const records = recordsOf(at), found = query ? foundTypes(at, query) : null;
  return {
    length: found ? found.length : records.length,
    total: records.length,
    cells: row => typeCells(records.at(found ? found[row] : row)),
    line: row => String(records.at(found ? found[row] : row)),
    place: index => found ? found.indexOf(index - FIRST) : index - FIRST,
  };
}

function listOfLines(lines, query, isHead) {
  const found = query ? foundLines(lines, query, isHead) : null;
  const line = row => lines.line(found ? found[row] : row);
  return { length: found ? found.length : lines.length, total: lines.length, cells: row => [line(row)], line,
    bytes: found ? null : lines.bytes };
}

function listOfStreams({ at, query }) {
  const { blockSize, sizes } = pdb.layout(bytesOf(at));
  const names = new Map(namedStreams(at).map(({ name, number }) => [number, quoted(name)]));
  const all = Array.from(sizes, (size, number) =>
    [number, size, Math.ceil(size / blockSize), names.get(number) ?? FIXED[number] ?? ''].map(String));
  const wanted = query.toLowerCase();
  const found = all.filter(([number, , , name]) => number === wanted || name.toLowerCase().includes(wanted));
  return { length: found.length, total: all.length, cells: row => found[row] };
}

// What the first streams hold in every file.
const FIXED = ['old directory', 'info: GUID, age, names of streams', 'TPI: type records', 'DBI: modules (not read)',
  'IPI: ids (not read)'];

function namedStreams(at) {
  try {
    return pdb.namedStreams(bytesOf(at));
  } catch (error) {
    if (error instanceof PdbError) return [];
    throw error;
  }
}

function listOfDiff({ query, origins }) {
  const all = diffOfBoth(), records = [recordsOf(0), recordsOf(1)];
  const line = ({ input, index }) => `${'-+'[input]} ${records[input].get(index)}`;
  const wanted = query.toLowerCase();
  const found = all.filter(each => (each.origin || !origins) && (!wanted || line(each).toLowerCase().includes(wanted)));
  const cells = ({ input, index }) => ['-+'[input], ...typeCells(records[input].get(index))];
  return { length: found.length, total: all.length, cells: row => cells(found[row]), line: row => line(found[row]) };
}

const LISTS = {
  types: listOfTypes,
  members: ({ at, query }) => listOfLines(membersOf(at), query, isHeadOfMembers),
  changes: ({ query }) => listOfLines(changesOfBoth(), query, isHeadOfChanges),
  streams: listOfStreams,
  diff: listOfDiff,
};

// The list of a search. Of each kind the last one is kept.
function listFor(list) {
  const key = `${list.kind === 'diff' || list.kind === 'changes' ? 'both' : list.at} list ${list.kind}`;
  const search = `${list.origins} ${list.query}`;
  if (made.get(key)?.search !== search) made.set(key, { search, ...LISTS[list.kind](list) });
  return made.get(key);
}

// ---- The questions of the page

// What can be told of a file, up to the refusal, if there is one.
function facts(at) {
  const file = bytesOf(at), told = { size: file.length };
  try {
    say(`Checking ${files[at].name}`);
    Object.assign(told, { layout: pdb.layout(file) }, pdb.identify(file));
    told.counts = pdb.check(file);
  } catch (error) {
    if (!(error instanceof PdbError)) throw error;
    Object.assign(told, { refused: asRefusal(error) });
    put(at, null);
  }
  return told;
}

function asRefusal({ number, text }) {
  return { number, text };
}

// A type with all that is known of it. The text is that of `members` for its name.
function detail({ at, index }) {
  const records = recordsOf(at), record = records.get(index);
  const named = record.references.map(reference => {
    const other = records.get(reference.index);
    return { ...reference, cells: other ? typeCells(other) : null };
  });
  const bytes = Array.from(record.bytes, byte => byte.toString(16).padStart(2, '0')).join(' ');
  const isDefined = /CLASS|STRUCTURE|UNION|ENUM|INTERFACE/.test(record.leaf) && record.name !== null;
  const text = isDefined ? decode(pdb.members(bytesOf(at), [record.name])) : '';
  return { cells: typeCells(record), named, bytes, text };
}

// The whole text of a list, with a line feed behind each line.
function wholeText(list) {
  if (list.bytes) return new Blob([list.bytes]);
  const parts = [];
  for (let row = 0; row < list.length; row += PORTION) {
    say(`Writing line ${row} of ${list.length}`);
    const count = Math.min(PORTION, list.length - row);
    parts.push(Array.from({ length: count }, (_, at) => `${list.line(row + at)}\n`).join(''));
  }
  return new Blob(parts);
}

function merge({ guid, age }) {
  say('Merging');
  const { file, types, bytes } = pdb.merge([bytesOf(0), bytesOf(1)], { guid, age });
  return { file: new Blob([file]), size: file.length, types, bytes };
}

const QUESTIONS = {
  facts: ({ at }) => facts(at),
  list(question) {
    const { length, total } = listFor(question);
    return { length, total };
  },
  rows({ list, from, count }) {
    const { length, cells } = listFor(list);
    return Array.from({ length: Math.max(0, Math.min(count, length - from)) }, (_, row) => cells(from + row));
  },
  place: ({ list, index }) => listFor(list).place(index),
  detail,
  text: ({ list }) => wholeText(listFor(list)),
  merge,
};

// ---- Messages. Each question is answered before the next one is looked at.

async function answer({ id, name, question }) {
  try {
    pdb = await loading;
    await readFiles();
    postMessage({ id, answer: QUESTIONS[name](question) });
  } catch (error) {
    if (error instanceof RangeError) error = new PdbError(33, '33 Memory');
    const refused = error instanceof PdbError ? asRefusal(error) : null;
    postMessage({ id, error: { text: String(error.message), refused } });
  }
}

let before = Promise.resolve();
onmessage = ({ data }) => {
  before = before.then(async () => {
    // Where the module cannot be made, the first answer says so.
    if (data.module) (loading = Pdbmerge.load(data.module)).catch(() => {});
    else if (data.put) put(...data.put);
    else await answer(data);
  });
};
