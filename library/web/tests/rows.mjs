#!/usr/bin/env node
// Answers as the program does, by the module, so that tests/examples can be run on it.
//
// usage: node rows.mjs FOLDER COMMAND WORD.., with the folder of tools/web and the words of the program
//        node rows.mjs FOLDER, with the words of a run in each line of standard input, as JSON
//
// The texts of `members` and of `diff --members` are those of the library; all others are made here, as
// docs/COMMANDS.md says. Of runs on standard input a line of JSON is printed for each: the status, standard error, and
// the SHA-256 of standard output and of OUT. No OUT is written then.
import { createHash } from 'node:crypto';
import { readFileSync, writeFileSync } from 'node:fs';
import { resolve } from 'node:path';
import { pathToFileURL } from 'node:url';

const [folder, ...given] = process.argv.slice(2);
const { PdbError, load, quoted } = await import(pathToFileURL(resolve(folder, 'pdbmerge.mjs')));
const pdb = await load();
const DIFFERENT = 3;

// The words of a command, and what its options say.
function read(given) {
  const line = { words: [], settings: {}, options: new Set() };
  const take = {
    '--guid': value => line.settings.guid = value,
    '--age': value => line.settings.age = Number(value),
    '--limit': value => line.settings.limit = Number(value),
    '--block-size': value => line.settings.blockSize = Number(value),
    '--map': value => line.map = value,
  };
  for (let at = 0; at < given.length; at++) {
    if (given[at] in take) take[given[at]](given[++at]);
    else if (given[at].startsWith('--')) line.options.add(given[at]);
    else line.words.push(given[at]);
  }
  return line;
}

// Each command prints lines, or gives bytes of a text. What it returns is the status, where that is not 0.
const lines = all => all.map(line => `${line}\n`).join('');
const hex = number => `0x${number.toString(16)}`;
const commands = {
  check(file) {
    const { records, bytes, levels } = pdb.check(file);
    return { text: lines(['accepted', `records ${records}`, `bytes ${bytes}`, `levels ${levels}`]) };
  },
  types(file) {
    return { text: lines(Array.from(pdb.records(file), String)) };
  },
  records(file) {
    const line = ({ index, kind, size }) => `${hex(index)} 0x${kind.toString(16).padStart(4, '0')} ${size}`;
    return { text: lines(Array.from(pdb.records(file), line)) };
  },
  record(file, index) {
    const record = pdb.record(file, parseInt(index, 16));
    const named = record.references.map(({ place, index }) => `${place} ${hex(index)}`);
    const name = record.name === null ? [] : [`name ${quoted(record.name)}`];
    return { text: lines([Buffer.from(record.bytes).toString('hex'), ...named, ...name]) };
  },
  streams(file) {
    const { blockSize, blockCount, freeBlocks, directoryBytes, sizes } = pdb.layout(file);
    const head = [`block-size ${blockSize}`, `blocks ${blockCount}`, `free ${freeBlocks}`];
    head.push(`directory ${directoryBytes}`, `streams ${sizes.length}`);
    const blocks = pdb.blocks(file);
    let end = 0;
    const each = Array.from(sizes, (size, at) => [at, size, ...blocks.slice(end, end += Math.ceil(size / blockSize))]);
    return { text: lines([...head, ...each.map(words => words.join(' '))]) };
  },
  info(file) {
    const { guid, age } = pdb.identify(file), stream = pdb.stream(file, 1);
    const head = new DataView(stream.buffer, stream.byteOffset, 8);
    const names = pdb.namedStreams(file).map(({ name, number }) => `name ${quoted(name)} ${number}`);
    const features = Array.from(pdb.features(file), code => `feature ${code}`);
    const told = [`version ${head.getUint32(0, true)}`, `signature ${hex(head.getUint32(4, true))}`];
    return { text: lines([...told, `age ${age}`, `guid ${guid}`, ...names, ...features]) };
  },
  members(file, ...names) {
    return { text: pdb.members(file, names) };
  },
};

function diff(first, second, options) {
  if (options.has('--members')) {
    const text = pdb.changes(first, second);
    return { text, status: text.length ? DIFFERENT : 0 };
  }
  const found = pdb.diff(first, second), records = [first, second].map(file => pdb.records(file));
  const wanted = found.filter(({ origin }) => origin || !options.has('--origins'));
  const text = lines(wanted.map(({ input, index }) => `${'-+'[input]} ${records[input].get(index)}`));
  return { text, status: found.length ? DIFFERENT : 0 };
}

function merge(inputs, settings, map) {
  const files = inputs.map(input => readFileSync(input));
  const { file, types, bytes, maps } = map ? pdb.mergeWithMaps(files, settings) : pdb.merge(files, settings);
  const line = (at, place, index) => `${at} ${hex(0x1000 + place)} ${hex(index)}`;
  const each = (one, at) => Array.from(one, (index, place) => line(at, place, index));
  if (map) writeFileSync(map, lines(maps.flatMap(each)));
  return { text: lines([`types ${types}`, `bytes ${bytes}`, `file ${file.length}`]), file };
}

function run([name, ...given]) {
  const { words: [first, ...others], settings, options, map } = read(given);
  if (name === 'merge') return { ...merge(others, settings, map), out: first };
  if (name === 'diff') return diff(readFileSync(first), readFileSync(others[0]), options);
  return commands[name](readFileSync(first), ...others);
}

// What a run gives: a text, or a refusal.
function answer(words) {
  try {
    return { status: 0, error: '', ...run(words) };
  } catch (error) {
    if (!(error instanceof PdbError)) throw error;
    return { status: 1, error: `pdbmerge: ${error.text}\n`, text: '' };
  }
}

function sum(data) {
  return createHash('sha256').update(data).digest('hex');
}

if (given.length === 0) {
  for (const line of readFileSync(0, 'utf8').split('\n').filter(Boolean)) {
    const { status, error, text, file } = answer(JSON.parse(line));
    console.log(JSON.stringify({ status, error, output: sum(text), file: file ? sum(file) : null }));
  }
} else {
  const { status, error, text, file, out } = answer(given);
  if (file) writeFileSync(out, file);
  writeFileSync(1, text);
  writeFileSync(2, error);
  process.exitCode = status;
}
