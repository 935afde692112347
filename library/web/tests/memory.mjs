// Makes each call with modules whose memory may have only so many pages. Each answers as a module without a limit
// does, or says 33 Memory; then it still answers for a small file.
//
// usage: node memory.mjs FOLDER SMALL FIRST SECOND, with the folder of tools/web and three files
//
// It prints how many calls were made, how many of them had no memory, and how many were not as wanted.
import { readFileSync } from 'node:fs';
import { resolve } from 'node:path';
import { isDeepStrictEqual } from 'node:util';
import { pathToFileURL } from 'node:url';
import { limitable } from './limited.mjs';

const [folder, ...names] = process.argv.slice(2);
const { PdbError, Pdbmerge } = await import(pathToFileURL(resolve(folder, 'pdbmerge.mjs')));
const [small, first, second] = names.map(name => new Uint8Array(readFileSync(name)));
const bytes = readFileSync(resolve(folder, 'pdbmerge.wasm'));
const settings = { guid: new Uint8Array(16), age: 1 }, byTypes = { guid: 'types', age: 1 };
const CALLS = {
  identify: pdb => pdb.identify(first),
  layout: pdb => pdb.layout(first),
  blocks: pdb => pdb.blocks(first),
  check: pdb => pdb.check(first),
  stream: pdb => pdb.stream(first, 2),
  namedStreams: pdb => pdb.namedStreams(first),
  features: pdb => pdb.features(first),
  records: pdb => Array.from(pdb.records(first), String),
  names: pdb => pdb.records(first).names(),
  record: pdb => String(pdb.record(first, 0x1000)),
  allReferences: pdb => pdb.allReferences(first),
  members: pdb => pdb.members(first),
  diff: pdb => pdb.diff(first, second),
  changes: pdb => pdb.changes(first, second),
  merge: pdb => pdb.merge([first, second], settings),
  mergeWithMaps: pdb => pdb.mergeWithMaps([first, second], settings),
  mergeByTypes: pdb => pdb.merge([first, second], byTypes),
  guidOfTypes: pdb => pdb.guidOfTypes([first, second]),
};

const [least, limited] = limitable(bytes);
const whole = await Pdbmerge.load(bytes);
const wanted = Object.fromEntries(Object.entries(CALLS).map(([name, call]) => [name, call(whole)]));
let calls = 0, refused = 0, wrong = 0;

function attempt(pdb, name) {
  calls++;
  try {
    if (!isDeepStrictEqual(CALLS[name](pdb), wanted[name])) throw new Error('another answer');
  } catch (error) {
    if (error instanceof PdbError && error.number === 33) refused++;
    else wrong++, console.log(name, error);
  }
}

for (let most = least, step = 1; most < least + 2000; most += step, step = Math.ceil((most - least) / 24) || 1) {
  const module = await WebAssembly.compile(limited(most));
  for (const name of Object.keys(CALLS)) {
    let pdb;
    try {
      pdb = await Pdbmerge.load(module);
    } catch (error) {
      if (error.number !== 33) throw error;
      continue;
    }
    attempt(pdb, name);
    try {
      if (pdb.memory > most << 16) throw new Error('more memory than the limit');
      if (most > least + 12) pdb.check(small);
    } catch (error) {
      wrong++, console.log('afterwards', name, error);
    }
  }
}
console.log(JSON.stringify({ calls, refused, wrong }));
