// Prints what pdbmerge.mjs exports, and the public names of its classes, as JSON.
//
// usage: node declared.mjs FOLDER FILE, with the folder of tools/web and a file whose records are made
import { readFileSync } from 'node:fs';
import { resolve } from 'node:path';
import { pathToFileURL } from 'node:url';

const [folder, file] = process.argv.slice(2);
const exported = await import(pathToFileURL(resolve(folder, 'pdbmerge.mjs')));
const pdb = await exported.load();
const records = pdb.records(readFileSync(file));
const refusal = new exported.PdbError(33, '33 Memory');
const made = { PdbError: refusal, Pdbmerge: pdb, Records: records, Record: records.at(0) };
const OF_ERRORS = ['stack', 'message', 'name'], OF_CLASSES = ['length', 'name', 'prototype'];

// The names of a class, or null of what is none.
function namesOf(name) {
  const type = exported[name], one = made[name];
  if (!one) return null;
  const ofOne = Object.getOwnPropertyNames(one).filter(own => !(one instanceof Error && OF_ERRORS.includes(own)));
  const ofType = Object.getOwnPropertyNames(type).filter(own => !OF_CLASSES.includes(own));
  const ofAll = Object.getOwnPropertyNames(type.prototype).filter(own => own !== 'constructor');
  return [...new Set([...ofOne, ...ofType, ...ofAll])].sort();
}

console.log(JSON.stringify(Object.fromEntries(Object.keys(exported).map(name => [name, namesOf(name)]))));
