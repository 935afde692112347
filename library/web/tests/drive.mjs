// Drives the page in a headless Chromium as hands do, and compares what it shows and saves with the program.
//
// usage: node drive.mjs PAGE PROGRAM FOLDER FIRST SECOND BAD TEN LARGE [PICTURE]
//
// FIRST and SECOND are two sound files, BAD is one that is refused, TEN has about 10 MB, and LARGE has very many types.
// FOLDER is for what is saved. What is not as wanted is printed, and then how many checks were made, as JSON.
import { execFileSync, spawnSync } from 'node:child_process';
import { existsSync, readFileSync, rmSync } from 'node:fs';
import { basename, dirname, join } from 'node:path';
import { Chromium, sleep } from './chromium.mjs';
import { limitable } from './limited.mjs';

const [page, program, folder, first, second, bad, ten, large, picture] = process.argv.slice(2);
const GUID = '00112233-4455-6677-8899-aabbccddeeff';
const WIDE = { width: 1200, height: 860 };
// How long a file of 10 MB may take until its types are shown. On an idle machine it is a part of a second.
const PATIENCE = 5000;

const browser = new Chromium(WIDE);
let checks = 0, wrong = 0;

function hold(what, got, wanted) {
  checks++;
  if (Buffer.isBuffer(got) ? got.equals(wanted) : got === wanted) return;
  wrong++;
  console.log(`${what}\n  got    ${String(got).slice(0, 1000)}\n  wanted ${String(wanted).slice(0, 1000)}`);
}

// What the program prints.
const told = (...words) => spawnSync(program, words, { maxBuffer: 2 ** 30 }).stdout;
const click = selector => browser.evaluate(`document.querySelector(${JSON.stringify(selector)}).click()`);
const text = selector => browser.evaluate(`document.querySelector(${JSON.stringify(selector)}).textContent`);
const idle = `[...document.querySelectorAll('.line')].every(line => line.filled) && asked.waiting.size === 0`;

async function tab(kind) {
  await click(`#tab-${kind}`);
  await browser.until(`$('tab-${kind}').ariaSelected === 'true' && ${idle}`);
}

// The texts of the lines that are seen, in their order: their cells, with a blank between them.
const seen = () => browser.evaluate(`[...document.querySelectorAll('.line')]
  .sort((one, other) => one.dataset.row - other.dataset.row)
  .map(line => [...line.children].map(cell => cell.textContent).filter(Boolean).join(' '))`);

// What the page saves by a click.
async function saved(selector, name) {
  const path = join(folder, name);
  rmSync(path, { force: true });
  await click(selector);
  for (let tries = 0; !existsSync(path); tries++) {
    if (tries > 3000) throw new Error(`${name} was not saved`);
    await sleep(10);
  }
  // A download has its name when it is whole.
  return readFileSync(path);
}

const linesOf = bytes => bytes.toString('latin1').split('\n').slice(0, -1);
// A line of `types` without what it names, as the table shows it.
const inTable = line => line.replace(/^((?:[-+] )?0x\w+ \w+ \d+)(?: 0x\w+)*/, '$1');

// Searches in what is shown. Nothing ends the search.
async function search(wanted) {
  await browser.evaluate(`$('search').value = ${JSON.stringify(wanted)}, $('search').oninput()`);
  const told = `$('count').textContent`;
  await browser.until(`${told} && ${told}.includes(' of ') === ${wanted !== ''} && ${idle}`);
}

async function lists(kind, name, wanted, shown = line => line) {
  await tab(kind);
  const lines = await seen();
  const first = linesOf(wanted).map(shown).slice(0, lines.length);
  hold(`${kind}: the lines that are seen`, lines.join('\n'), first.join('\n'));
  hold(`${kind}: there are lines`, lines.length > 5, true);
  hold(`${kind}: what is saved`, await saved('#save', name), wanted);
}

async function oneFile() {
  await browser.drop('#target', first);
  await browser.until(`document.body.dataset.count === '1' && ${idle} && document.querySelector('.line')`);
  const info = told('info', first).toString();
  hold('the GUID that is shown', (await text('.card')).includes(/guid (.*)/.exec(info)[1]), true);
  hold('the tab that is shown', await text('[role="tab"][aria-selected="true"]'), 'Types');
  await lists('types', `${basename(first)}.types.txt`, told('types', first), inTable);
  await lists('members', `${basename(first)}.members.txt`, told('members', first));
}

async function refusedFile() {
  await browser.drop('.add', bad);
  await browser.until(`!$('notice').hidden`);
  const line = spawnSync(program, ['check', bad]).stderr.toString().trim().replace('pdbmerge: ', '');
  const notice = await text('#notice');
  const wanted = `${basename(bad)} was refused: ${line}. Nothing of it was kept.`;
  hold(`the notice: ${notice}`, notice.includes(wanted), true);
  hold('the files after a refusal', await browser.evaluate('document.body.dataset.count'), '1');
}

async function twoFiles() {
  await browser.drop('.add', second);
  await browser.until(`document.body.dataset.count === '2' && ${idle}`);
  hold('the tab of two files', await text('[role="tab"][aria-selected="true"]'), 'What changed');
  await lists('changes', 'both.changes.txt', told('diff', '--members', first, second));
  await search('port');
  const parts = told('diff', '--members', first, second).toString().split(/^(?=[~+-] [^ ])/m);
  const wanted = parts.filter(part => part.toLowerCase().includes('port')).join('').split('\n');
  const lines = await seen();
  hold('a search for a member', lines.join('\n'), wanted.slice(0, lines.length).join('\n'));
  hold('it finds less than all', parts.length > 3 && wanted.length > 3, true);
  await search('');
  await lists('diff', 'both.diff.txt', told('diff', first, second), inTable);
  await click('#origins');
  await browser.until(idle);
  hold('diff --origins', await saved('#save', 'both.diff.txt'), told('diff', '--origins', first, second));
  const colours = await browser.evaluate(`[...document.querySelectorAll('.line')].every(line =>
    line.classList.contains({ '-': 'gone', '+': 'came' }[line.firstChild.textContent]))`);
  hold('the colours of the signs', colours, true);
}

async function mergedFile() {
  await click('#tab-merge');
  await browser.evaluate(`$('guid').value = '${GUID}', $('guid').oninput()`);
  await click('#merge-form .main');
  await browser.until(`document.querySelector('#merged a')`);
  const wanted = join(folder, 'wanted.pdb');
  execFileSync(program, ['merge', '--guid', GUID, '--age', '1', wanted, first, second]);
  hold('the merged file', await saved('#merged a', 'merged.pdb'), readFileSync(wanted));
  const guid = /guid (.*)/.exec(told('info', first))[1];
  await browser.evaluate(`$('guid').value = '${guid}', $('guid').oninput()`);
  hold('the GUID of an input', await browser.evaluate(`$('guid').validationMessage`), 'This is the GUID of an input.');
}

async function keys() {
  await tab('types');
  await browser.evaluate(`document.activeElement.blur()`);
  await browser.press('/', 'Slash', '/');
  hold('the key /', await browser.evaluate('document.activeElement.id'), 'search');
  await browser.type('lf_structure');
  await browser.until(`/ of /.test($('count').textContent) && ${idle}`);
  const wanted = linesOf(told('types', first)).filter(line => / LF_STRUCTURE /.test(line)).map(inTable);
  const lines = await seen();
  hold('a search for a leaf', lines.join('\n'), wanted.slice(0, lines.length).join('\n'));
  await browser.press('ArrowDown');
  hold('the arrow key leads into the table', await browser.evaluate('document.activeElement.id'), 'list');
  await browser.press('ArrowDown');
  await browser.press('Enter');
  await browser.until(`!$('detail').hidden`);
  const index = wanted[1].split(' ')[0], detail = await text('#detail');
  hold('the type that Enter opens', detail.startsWith(`${index} LF_STRUCTURE`), true);
  const [bytes] = linesOf(told('record', first, index));
  hold('its bytes', detail.replaceAll(' ', '').includes(bytes), true);
  const name = /"(.*)"/.exec(wanted[1])[1];
  hold(`the members of ${name}`, detail.includes(told('members', first, name).toString()), true);
  await browser.press('Escape');
  hold('the key Escape', await browser.evaluate(`$('detail').hidden && document.activeElement.id`), 'list');
}

// A merge by a module whose memory may not grow, in place of the page's.
async function memoryEnds() {
  const [least, limited] = limitable(readFileSync(join(dirname(page), 'pdbmerge.wasm')));
  const module = limited(least + 14).toString('base64');
  await browser.evaluate(`asked.worker.postMessage({ module: asBytes('${module}') })`);
  await click('#tab-merge');
  await click('#random');
  await click('#merge-form .main');
  await browser.until(`$('merged').textContent`);
  const notice = await text('#notice');
  hold(`the notice: ${notice}`, notice.includes('33 Memory') && notice.includes('no more memory'), true);
  await browser.evaluate('asked.stop(new Cancelled())');
}

async function cancelled() {
  await click('#tab-merge');
  await click('#random');
  await click('#merge-form .main');
  await browser.until(`!$('busy').hidden`);
  await click('#cancel');
  await browser.until(`$('merged').textContent.includes('cancelled')`);
  hold('nothing is busy after it', await browser.evaluate(`$('busy').hidden && asked.waiting.size === 0`), true);
}

async function manyTypes() {
  for (const button of [0, 0]) await click(`.card button[aria-label^="Take"]`), await sleep(button);
  await browser.until(`document.body.dataset.count === '0'`);
  const begun = performance.now();
  await browser.drop('#target', ten);
  await browser.until(`document.querySelectorAll('.line').length > 5 && ${idle}`);
  const time = performance.now() - begun;
  hold(`a file of 10 MB: ${time.toFixed(0)} ms`, time < PATIENCE, true);
  await browser.drop('.add', large);
  await browser.until(`document.body.dataset.count === '2'`, 120000);
  await cancelled();
  await click(`.card button[aria-label^="Take"]`);
  await tab('types');
  const wanted = linesOf(told('types', large)).map(inTable), last = wanted.at(-1);
  await browser.evaluate(`$('list').focus()`);
  await browser.press('End');
  await browser.until(idle);
  hold(`the last of ${wanted.length} types, by the key End`, (await seen()).at(-1), last);
  await browser.press('Home');
  await browser.until(idle);
  hold('the first, by the key Home', (await seen())[0], wanted[0]);
  await browser.evaluate(`$('list').scrollTop = $('list').scrollHeight`);
  await sleep(100);
  await browser.until(idle);
  hold('the last, by the scroll bar', (await seen()).at(-1), last);
  await browser.evaluate(`$('list').scrollTop /= 2`);
  await sleep(100);
  await browser.until(idle);
  const middle = await seen(), from = wanted.indexOf(middle[0]);
  hold('rows from the middle', middle.join('\n'), wanted.slice(from, from + middle.length).join('\n'));
  hold('it is the middle', Math.abs(from / wanted.length - 0.5) < 0.01, true);
  return { time: Math.round(time), types: wanted.length };
}

// What the browser said: a log entry, an error, or a request for anything but the page and its worker.
function complaints() {
  return browser.events.flatMap(({ method, params }) => {
    if (method === 'Log.entryAdded') return params.entry.text;
    if (method === 'Runtime.exceptionThrown') return params.exceptionDetails.text;
    if (method === 'Runtime.consoleAPICalled') return 'something was written to the console';
    if (method !== 'Network.requestWillBeSent') return [];
    const { url } = params.request;
    return url.startsWith('blob:null/') || (url.startsWith('file:///') && url.endsWith(basename(page))) ? [] : url;
  });
}

// A connection that a page would open is refused by its policy.
async function closed() {
  const answer = await browser.evaluate(`fetch('http://127.0.0.1:9/').then(() => 'opened', () => 'refused')`);
  hold('a connection', answer, 'refused');
  await sleep(100);
  hold('the policy refuses it', complaints().some(text => text.includes('Content Security Policy')), true);
}

try {
  await browser.open(page, folder);
  await oneFile();
  await refusedFile();
  await twoFiles();
  if (picture) await tab('changes'), await browser.picture(picture, WIDE);
  await mergedFile();
  await keys();
  await memoryEnds();
  const more = await manyTypes();
  hold('what the browser complained of', complaints().join('\n'), '');
  await closed();
  console.log(JSON.stringify({ checks, wrong, ...more }));
} finally {
  await browser.end();
}
