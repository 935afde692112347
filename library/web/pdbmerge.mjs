// The types of Program Database (PDB) files, checked, merged, compared and shown: the calls of
// include/pdbmerge.h, for pages and for Node. pdbmerge.d.ts tells the types of all that is exported.
//
// Pointers and lengths are BigInts, since the module was compiled for 64-bit addresses. A view of the memory
// is made anew for each access: a call may let the memory grow, and then an older view is empty.

const OK = 0, MEMORY = 33, ROOM = 100;
const FIRST = 0x1000;
const INFO = 1, TYPES = 2;
const NONE = 2n ** 64n - 1n;
const LARGEST = 2 ** 32 - 1;
const FAULT_SIZE = 256, TEXT_SIZE = 235;
const SETTINGS_SIZE = 44, SLICE_SIZE = 16, REFERENCE_SIZE = 8, DIFFERENCE_SIZE = 12;
// What a GUID that is made of the types is called, and what stands for it until it is made.
const BY_TYPES = 'types', NO_GUID = new Uint8Array(16);
// A record has at most so many bytes; so has its name, and so have its references.
const RECORD_ROOM = 1 << 17;
// Room for a text at first, beside that of the files. Nearly all texts take less than both.
const TEXT_ROOM = 1 << 20;

// The names of the leaves, by their kinds. tools/web writes the rows of docs/FORMAT.md here.
export const leaves = new Map([/* LEAVES */]);

/** A refusal. Its number and its text are those of the program. */
export class PdbError extends Error {
  constructor(number, text, input = null) {
    super(text);
    this.name = 'PdbError';
    this.number = number;
    this.text = text;
    this.input = input;
  }
}

function outOfMemory() {
  return new PdbError(MEMORY, '33 Memory');
}

function asBytes(bytes) {
  if (!(bytes instanceof Uint8Array)) throw new TypeError('a file is a Uint8Array');
  return bytes;
}

function asWord(number, what) {
  if (!Number.isInteger(number) || number < 0 || number > LARGEST)
    throw new RangeError(`${what} is not in 0..${LARGEST}: ${number}`);
  return number;
}

// A limit or a block size. What has more than 32 bits is refused as the largest number is.
function asSetting(number) {
  return Number.isInteger(number) && number >= 0 && number <= LARGEST ? number : LARGEST;
}

function sumOf(files) {
  return files.reduce((sum, { length }) => sum + length, 0);
}

function hex(number, digits = 1) {
  return number.toString(16).padStart(digits, '0');
}

/** The bytes of a GUID that is told in one of the usual forms. */
export function parseGuid(text) {
  const [, digits] = /^(?:urn:uuid:)?([0-9a-f-]+)$/i.exec(text.replace(/^\{(.*)\}$/, '$1')) ?? [];
  if (!/^(.{32}|.{8}-.{4}-.{4}-.{4}-.{12})$/.test(digits) || digits.replaceAll('-', '').length !== 32)
    throw new RangeError(`this is no GUID: ${text}`);
  return Uint8Array.from(digits.replaceAll('-', '').match(/../g), byte => parseInt(byte, 16));
}

/** A GUID as the program prints it. */
export function formatGuid(bytes) {
  return Array.from(bytes, byte => hex(byte, 2)).join('').replace(/(.{8})(.{4})(.{4})(.{4})/, '$1-$2-$3-$4-');
}

/** A name as the program prints it: in quotes, and what is no printable ASCII by its number. */
export function quoted(bytes) {
  let text = '"';
  for (const byte of bytes) {
    const plain = byte >= 0x20 && byte <= 0x7e && byte !== 0x22 && byte !== 0x5c;
    text += plain ? String.fromCharCode(byte) : `\\x${hex(byte, 2)}`;
  }
  return `${text}"`;
}

// Memory of the module that is lent for a call, and given back after it.
class Lent {
  #calls;
  #taken = new Set();

  constructor(calls) {
    this.#calls = calls;
  }

  // Memory for so many bytes, or 0n where there is none.
  try(length) {
    const at = this.#calls.heap_take(BigInt(Math.max(length, 1)));
    if (at !== 0n) this.#taken.add(at);
    return at;
  }

  take(length) {
    const at = this.try(length);
    if (at === 0n) throw outOfMemory();
    return at;
  }

  // A copy of bytes: where it is, and how many there are.
  copy(bytes) {
    const at = this.take(asBytes(bytes).length);
    new Uint8Array(this.#calls.memory.buffer, Number(at), bytes.length).set(bytes);
    return [at, BigInt(bytes.length)];
  }

  give(at) {
    if (this.#taken.delete(at)) this.#calls.heap_give(at);
  }

  end() {
    for (const at of this.#taken) this.#calls.heap_give(at);
  }
}

/** A type record of a file. */
export class Record {
  #module;

  constructor(module, index, bytes) {
    this.#module = module;
    this.index = index;
    this.bytes = bytes;
  }

  get size() {
    return this.bytes.length;
  }

  get kind() {
    return this.bytes[2] | this.bytes[3] << 8;
  }

  get leaf() {
    return leaves.get(this.kind) ?? null;
  }

  get references() {
    return this.#module.references(this.bytes, this.index);
  }

  get name() {
    return this.#module.name(this.bytes, this.index);
  }

  // The line of the command `types`.
  toString() {
    const { leaf, name, references } = this;
    const named = references.map(({ index }) => ` 0x${hex(index)}`).join('');
    return `0x${hex(this.index)} ${leaf} ${this.size}${named}${name ? ` ${quoted(name)}` : ''}`;
  }
}

/** The type records of a file, in the order of their type indices. */
export class Records {
  #module;
  #stream;
  #offsets;

  constructor(module, stream, offsets) {
    this.#module = module;
    this.#stream = stream;
    this.#offsets = offsets;
    this.length = offsets.length;
  }

  // Where a record begins and ends in stream 2.
  #span(position) {
    const from = Number(this.#offsets[position]);
    return [from, from + 2 + (this.#stream[from] | this.#stream[from + 1] << 8)];
  }

  at(position) {
    if (!(position in this.#offsets)) return undefined;
    return new Record(this.#module, FIRST + position, this.#stream.subarray(...this.#span(position)));
  }

  get(index) {
    return this.at(index - FIRST);
  }

  kind(position) {
    const from = Number(this.#offsets[position]);
    return this.#stream[from + 2] | this.#stream[from + 3] << 8;
  }

  // The names of all records. They are made at once, and so in a small part of the time.
  names() {
    return this.#module.names(this.#stream, this.#offsets);
  }

  *[Symbol.iterator]() {
    for (let position = 0; position < this.length; position++) yield this.at(position);
  }
}

/** The calls of the library. */
export class Pdbmerge {
  #calls;
  #fault;
  #result;
  #record;
  #room;

  /** Makes the module of the bytes of pdbmerge.wasm, or of what WebAssembly.compile made of them. */
  static async load(bytes) {
    const made = await WebAssembly.instantiate(bytes, {});
    return new Pdbmerge(made instanceof WebAssembly.Instance ? made : made.instance);
  }

  constructor(instance) {
    this.#calls = instance.exports;
    const lasting = new Lent(this.#calls);
    [this.#fault, this.#result] = [lasting.take(FAULT_SIZE), lasting.take(64)];
    [this.#record, this.#room] = [lasting.take(RECORD_ROOM), lasting.take(RECORD_ROOM)];
  }

  // ---- Memory

  #bytes(at, length) {
    return new Uint8Array(this.#calls.memory.buffer, Number(at), length);
  }

  #view(at, length) {
    return new DataView(this.#calls.memory.buffer, Number(at), length);
  }

  // So many numbers of 32 bits, the lowest byte first.
  #words(at, count) {
    const view = this.#view(at, 4 * count);
    return Array.from({ length: count }, (_, place) => view.getUint32(4 * place, true));
  }

  // What a call wrote, in memory of JavaScript.
  #copied(at, length) {
    try {
      return this.#bytes(at, length).slice();
    } catch (error) {
      throw error instanceof RangeError ? outOfMemory() : error;
    }
  }

  #lend(use) {
    const lent = new Lent(this.#calls);
    try {
      return use(lent);
    } finally {
      lent.end();
    }
  }

  // How many bytes the module's memory has. It never becomes less.
  get memory() {
    return this.#calls.memory.buffer.byteLength;
  }

  // ---- Answers

  #refuse(number) {
    const fault = this.#view(this.#fault, FAULT_SIZE);
    const input = fault.getBigUint64(0, true), length = fault.getBigUint64(8, true);
    const text = this.#bytes(this.#fault + 20n, Math.min(Number(length), TEXT_SIZE)).slice();
    throw new PdbError(number, new TextDecoder().decode(text), input === NONE ? null : Number(input));
  }

  // Makes a call, whose last argument is the fault. Returns whether there was room.
  #call(name, ...given) {
    const answer = this.#calls[`pdbmerge_${name}`](...given, this.#fault);
    if (answer !== OK && answer !== ROOM) this.#refuse(answer);
    return answer === OK;
  }

  // How much room the last call takes, by its first result.
  get #wanted() {
    return Number(this.#view(this.#result, 8).getBigUint64(0, true));
  }

  // Makes a call that tells how many items it has: with room for so many, and once more where these are too few.
  // Where there is no memory for the call and the room together, it is made without room first. Returns where the
  // items are.
  #made(lent, room, size, call) {
    let at = lent.try(room * size), isTight = at === 0n;
    try {
      if (!isTight && call(at, BigInt(room))) return at;
    } catch (error) {
      if (error.number !== MEMORY) throw error;
      isTight = true;
    }
    lent.give(at);
    if (isTight) call(lent.take(0), 0n);
    room = this.#wanted;
    at = lent.take(room * size);
    call(at, BigInt(room));
    return at;
  }

  // A copy of the items that a call lists, each of so many bytes.
  #sized(lent, name, given, size = 1, room = 0) {
    const at = this.#made(lent, room, size, (to, room) => this.#call(name, ...given, to, room, this.#result));
    return this.#copied(at, this.#wanted * size);
  }

  #listed(name, bytes, size) {
    return this.#lend(lent => this.#sized(lent, name, lent.copy(bytes), size).buffer);
  }

  // ---- The calls

  get version() {
    const number = this.#calls.pdbmerge_version();
    return [number >> 16, number >> 8 & 255, number & 255].join('.');
  }

  identify(file) {
    return this.#lend(lent => {
      this.#call('identify', ...lent.copy(file), this.#result);
      const [age, blockSize] = this.#words(this.#result + 16n, 2);
      return { guid: formatGuid(this.#bytes(this.#result, 16)), age, blockSize };
    });
  }

  layout(file) {
    return this.#lend(lent => {
      const given = [...lent.copy(file), this.#result];
      this.#call('layout', ...given, 0n, 0n);
      const [blockSize, blockCount, freeBlocks, directoryBytes, streams] = this.#words(this.#result, 5);
      const at = lent.take(4 * streams);
      this.#call('layout', ...given, at, BigInt(streams));
      const sizes = new Uint32Array(this.#copied(at, 4 * streams).buffer);
      return { blockSize, blockCount, freeBlocks, directoryBytes, sizes };
    });
  }

  blocks(file) {
    return new Uint32Array(this.#listed('blocks', file, 4));
  }

  check(file) {
    return this.#lend(lent => {
      this.#call('check', ...lent.copy(file), this.#result);
      const [records, bytes, levels] = this.#words(this.#result, 3);
      return { records, bytes, levels };
    });
  }

  // Where the settings of a merge are.
  #settings(lent, { guid, age, limit = 2 ** 30, blockSize = 4096 }) {
    const at = lent.take(SETTINGS_SIZE), view = this.#view(at, SETTINGS_SIZE);
    const given = guid === BY_TYPES ? NO_GUID : guid;
    this.#bytes(at, 16).set(typeof given === 'string' ? parseGuid(given) : given);
    view.setUint32(16, asWord(age, 'age'), true);
    view.setUint32(20, asSetting(limit), true);
    view.setUint32(24, asSetting(blockSize), true);
    this.#putSeed(at + 28n);
    return at;
  }

  // Random bytes, for hashes alone: no answer depends on them.
  #putSeed(at) {
    this.#bytes(at, 16).set(crypto.getRandomValues(new Uint8Array(16)));
    return at;
  }

  // Where slices are, and how many there are.
  #slices(lent, all) {
    const copies = all.map(bytes => lent.copy(bytes));
    const at = lent.take(SLICE_SIZE * all.length), view = this.#view(at, SLICE_SIZE * all.length);
    copies.flat().forEach((word, place) => view.setBigUint64(8 * place, word, true));
    return [at, BigInt(all.length)];
  }

  // Merges by a call that writes the report. The room is that of all files, which is nearly always enough.
  #merged(lent, files, call) {
    const at = this.#made(lent, sumOf(files) + 16 * 32768, 1, call);
    const [types, bytes] = this.#words(this.#result + 8n, 2);
    return { file: this.#copied(at, this.#wanted), types, bytes };
  }

  merge(files, settings) {
    const name = settings.guid === BY_TYPES ? 'merge_by_types' : 'merge';
    return this.#lend(lent => {
      const given = [...this.#slices(lent, files), this.#settings(lent, settings)];
      return this.#merged(lent, files, (at, room) => this.#call(name, ...given, at, room, this.#result));
    });
  }

  guidOfTypes(files) {
    return this.#lend(lent => {
      this.#call('guid_of_types', ...this.#slices(lent, files), this.#putSeed(lent.take(16)), this.#result);
      return formatGuid(this.#bytes(this.#result, 16));
    });
  }

  // Only a merge without maps makes the GUID.
  mergeWithMaps(files, settings) {
    const guid = settings.guid === BY_TYPES ? this.guidOfTypes(files) : settings.guid;
    return this.#lend(lent => {
      const given = [...this.#slices(lent, files), this.#settings(lent, { ...settings, guid })];
      const counts = lent.take(4 * files.length), total = lent.take(8);
      let items = Math.floor(sumOf(files) / 16), indices = lent.take(4 * items);
      const merged = this.#merged(lent, files, (at, room) => {
        const rooms = [indices, BigInt(items), counts, BigInt(files.length)];
        const done = this.#call('merge_map', ...given, at, room, ...rooms, this.#result, total);
        const wanted = Number(this.#view(total, 8).getBigUint64(0, true));
        if (!done && wanted > items) {
          lent.give(indices);
          [items, indices] = [wanted, lent.take(4 * wanted)];
        }
        return done;
      });
      let end = 0;
      const all = new Uint32Array(this.#copied(indices, 4 * items).buffer);
      const maps = this.#words(counts, files.length).map(count => all.slice(end, end += count));
      return { ...merged, maps };
    });
  }

  stream(file, number) {
    return this.#lend(lent => this.#sized(lent, 'stream', [...lent.copy(file), asWord(number, 'number')]));
  }

  namedStreams(file) {
    const info = this.stream(file, INFO);
    const numbers = new Uint32Array(this.#listed('named_streams', info, 4));
    const names = new Uint8Array(this.#listed('stream_names', info, 1));
    let at = 0;
    return Array.from(numbers, number => {
      const end = names.indexOf(0, at), name = names.slice(at, end);
      at = end + 1;
      return { name, number };
    });
  }

  features(file) {
    return new Uint32Array(this.#listed('features', this.stream(file, INFO), 4));
  }

  records(file) {
    const stream = this.stream(file, TYPES);
    return new Records(this, stream, new BigUint64Array(this.#listed('records', stream, 8)));
  }

  record(file, index) {
    const stream = this.stream(file, TYPES);
    return this.#lend(lent => {
      this.#call('record', ...lent.copy(stream), asWord(index, 'index'), this.#result);
      const from = Number(this.#view(this.#result, 8).getBigUint64(0, true));
      return new Record(this, index, stream.subarray(from, from + 2 + (stream[from] | stream[from + 1] << 8)));
    });
  }

  // Puts a record where calls read it.
  #put(record, index) {
    if (asBytes(record).length > RECORD_ROOM) throw new RangeError('a record has at most 65537 bytes');
    this.#bytes(this.#record, record.length).set(record);
    return [this.#record, BigInt(record.length), asWord(index, 'index')];
  }

  references(record, index = FIRST) {
    const room = BigInt(RECORD_ROOM / REFERENCE_SIZE);
    this.#call('references', ...this.#put(record, index), this.#room, room, this.#result);
    const [count] = this.#words(this.#result, 1), words = this.#words(this.#room, 2 * count);
    return Array.from({ length: count }, (_, at) => ({ place: words[2 * at], index: words[2 * at + 1] }));
  }

  // A first call tells how many there are.
  allReferences(file) {
    const stream = this.stream(file, TYPES);
    return this.#lend(lent => {
      const given = lent.copy(stream), numbers = [this.#result, lent.take(8)];
      this.#call('all_references', ...given, 0n, 0n, 0n, 0n, ...numbers);
      const [total, records] = numbers.map(at => Number(this.#view(at, 8).getBigUint64(0, true)));
      const at = lent.take(REFERENCE_SIZE * total), counts = lent.take(4 * records);
      this.#call('all_references', ...given, at, BigInt(total), counts, BigInt(records), ...numbers);
      const words = new Uint32Array(this.#copied(at, REFERENCE_SIZE * total).buffer);
      const every = first => Uint32Array.from({ length: total }, (_, at) => words[2 * at + first]);
      let end = 0;
      const ends = new Uint32Array(this.#copied(counts, 4 * records).buffer).map(count => end += count);
      return { places: every(0), indices: every(1), ends };
    });
  }

  name(record, index = FIRST) {
    this.#call('name', ...this.#put(record, index), this.#room, BigInt(RECORD_ROOM), this.#result);
    const length = this.#view(this.#result, 8).getBigUint64(0, true);
    return length === NONE ? null : this.#bytes(this.#room, Number(length)).slice();
  }

  // The names of records, one behind the other: they are parts of the records, so a stream has room for them.
  names(stream, offsets) {
    return this.#lend(lent => {
      const [at, length] = lent.copy(stream), out = lent.take(stream.length);
      const ends = new Uint32Array(offsets.length), named = new Uint8Array(offsets.length);
      let end = 0, view = this.#view(this.#result, 8);
      offsets.forEach((offset, place) => {
        const room = BigInt(stream.length - end);
        this.#call('name', at + offset, length - offset, FIRST + place, out + BigInt(end), room, this.#result);
        if (view.buffer.byteLength === 0) view = this.#view(this.#result, 8);
        named[place] = view.getUint32(4, true) === LARGEST ? 0 : 1;
        if (named[place]) end += view.getUint32(0, true);
        ends[place] = end;
      });
      return { bytes: this.#copied(out, end), ends, named };
    });
  }

  diff(first, second) {
    return this.#lend(lent => {
      const given = [...lent.copy(first), ...lent.copy(second), this.#putSeed(lent.take(16))];
      const found = new Uint32Array(this.#sized(lent, 'diff', given, DIFFERENCE_SIZE).buffer);
      return Array.from({ length: found.length / 3 }, (_, at) => {
        const [input, index, origin] = found.subarray(3 * at, 3 * at + 3);
        return { input, index, origin: origin !== 0 };
      });
    });
  }

  members(file, names = []) {
    return this.#lend(lent => {
      const asked = names.map(name => typeof name === 'string' ? new TextEncoder().encode(name) : name);
      const given = [...lent.copy(file), ...this.#slices(lent, asked)];
      return this.#sized(lent, 'members', given, 1, TEXT_ROOM + file.length);
    });
  }

  changes(first, second) {
    return this.#lend(lent => {
      const given = [...lent.copy(first), ...lent.copy(second), this.#putSeed(lent.take(16))];
      return this.#sized(lent, 'changes', given, 1, TEXT_ROOM + sumOf([first, second]));
    });
  }
}

/** Makes the module of the file pdbmerge.wasm that lies beside this one. */
export async function load() {
  const place = new URL('pdbmerge.wasm', import.meta.url);
  if (place.protocol !== 'file:') return Pdbmerge.load(await (await fetch(place)).arrayBuffer());
  const { readFile } = await import('node:fs/promises');
  return Pdbmerge.load(await readFile(place));
}
