// Runs the test vectors of calls.words, whose form README.md has, by a library in WebAssembly:  node run.mjs LIBRARY.wasm FILE
// Prints how many calls were made, and exits with 1 at the first one that answers or writes anything else.
//
// usize has 32 bits there; a struct is returned through an address that is handed over first.
import { readFileSync } from 'node:fs';

const [SET, FILL, STEMS, OPEN, TURN, MERGE, MAKE, SHUFFLED, MAKE_STEMS, ENTRIES, JOIN, SERVE, TOP_UP] = [1, 2, 3, 4, 5, 6, 7, 8, 9, 10, 11, 12, 13];
const [VIEW, VIEW_ALL, GROW, REPORT_ON, BYTES, FILL_BYTES, NUMBER, FIND, STRING] = [14, 15, 16, 17, 18, 19, 20, 21, 22];
const [ROWS, POS, OSP, PLAN, STATE, THRESHOLD, OUTPUT, KEPT, LIST, UPLOAD, REPORT] = [0, 1, 2, 3, 4, 5, 6, 7, 8, 9, 10];
const [LINE, ASIDE, GRANT, SEEN_ROWS, SEEN_POS, SEEN_OSP] = [11, 12, 13, 14, 15, 16];
const [STRINGS, ENDS, OUT, CUTS, NUMBERED, PLACES, SOUGHT, BUFFERS] = [17, 18, 19, 20, 21, 22, 23, 24];
const [PLAN_ROOM, STATE_ROOM] = [256, 11];
const ENTRY_WORDS = 5 + PLAN_ROOM + STATE_ROOM;
const GUARDS = 8;
const GUARD = 0xa5a5c3c3;
const NUMBERS = 29;
const PAGE = 65536;

let calls = 0;
const refusals = new Array(NUMBERS).fill(0);

function fail(what) {
  console.error(`call ${calls}: ${what}`);
  process.exit(1);
}

// The library, and its memory: an answer's place and the buffers, each with room of its own behind what the library itself uses.
const [libraryFile, vectorFile] = process.argv.slice(2);
if (vectorFile === undefined) {
  console.error('usage: node run.mjs LIBRARY.wasm FILE');
  process.exit(2);
}
const { instance } = await WebAssembly.instantiate(readFileSync(libraryFile));
const { memory, sotjarn_open, sotjarn_turn, sotjarn_merge, sotjarn_make, sotjarn_join, sotjarn_serve, sotjarn_top_up } = instance.exports;
const { sotjarn_view, sotjarn_grow, sotjarn_report, sotjarn_number, sotjarn_find, sotjarn_string } = instance.exports;
const answerAt = memory.buffer.byteLength;
const ROOM = 17 * PAGE;
memory.grow(1 + (BUFFERS * ROOM) / PAGE);
const roomAt = (number) => answerAt + PAGE + number * ROOM;

const right = Array.from({ length: BUFFERS }, () => []);

const lent = (number) => new Uint32Array(memory.buffer, roomAt(number), right[number].length + 2 * GUARDS);
const buffer = (number) => [roomAt(number) + 4 * GUARDS, right[number].length];
const withGuards = (words) => [...new Array(GUARDS).fill(GUARD), ...words, ...new Array(GUARDS).fill(GUARD)];

function lend(number, words) {
  if (4 * (words.length + 2 * GUARDS) > ROOM) fail('a buffer has no room here');
  right[number] = words;
  lent(number).set(withGuards(words));
}

// The words of the file.
const bytes = readFileSync(vectorFile);
const view = new DataView(bytes.buffer, bytes.byteOffset, bytes.byteLength);
let at = 0;

function word() {
  if (at + 4 > bytes.byteLength) fail('the file ends within an instruction');
  at += 4;
  return view.getUint32(at - 4, true);
}

const words = (count) => Array.from({ length: count }, word);

function set() {
  const [number, count] = words(2);
  lend(number, words(count));
}

function fill() {
  const [number, count] = words(2);
  lend(number, Array.from({ length: count }, (_, i) => Math.imul(i + 1, 0x9e3779b9) >>> 0));
}

// Strings. A buffer of bytes has them in its words, the low byte first; those behind them in the last word are guards too.
const byteCounts = new Array(BUFFERS).fill(0);
const bytesOf = (number) => [roomAt(number) + 4 * GUARDS, byteCounts[number]];
const unpacked = (packed, count) => Array.from({ length: count }, (_, i) => (packed[i >> 2] >>> (8 * (i & 3))) & 0xff);

function packed(values, over) {
  return over.map((value, at) => {
    const four = values.slice(4 * at, 4 * at + 4);
    return four.reduce((made, byte, i) => ((made & ~(0xff << (8 * i))) | (byte << (8 * i))) >>> 0, value);
  });
}

const readBytes = (count) => unpacked(words((count + 3) >> 2), count);

function lendBytes(number, values) {
  byteCounts[number] = values.length;
  lend(number, packed(values, new Array((values.length + 3) >> 2).fill(GUARD)));
}

function setBytes() {
  const [number, count] = words(2);
  lendBytes(number, readBytes(count));
}

function fillBytes() {
  const [number, count] = words(2);
  lendBytes(number, Array.from({ length: count }, (_, i) => ((i + 1) * 0x9d) & 0xff));
}

// The row of a stem: its year, 2026, its name, and that it grows in stand n100.
const stem = (number) => [0x400007ea, number, 10, 100];

function stems() {
  const numbers = Array.from({ length: word() }, (_, i) => i);
  lend(ROWS, numbers.flatMap(stem));
  lend(POS, numbers);
  lend(OSP, numbers);
}

// The stems as an upload, in an order that visits each once.
function shuffled() {
  const count = word();
  lend(UPLOAD, Array.from({ length: count }, (_, i) => stem((i * 40507) % count)).flat());
}

// Calls.

const answer = (count) => [...new Uint32Array(memory.buffer, answerAt, count)];

function mustAnswer(made, expected, refused) {
  if (made.some((value, i) => value !== expected[i])) fail(`the answer is another: ${made}, and must be ${expected}`);
  if (refused >= NUMBERS) fail('there is no such refusal');
  refusals[refused] += 1;
}

function mustWrite(number, count) {
  right[number] = [...words(count), ...right[number].slice(count)];
}

function open() {
  const [survey] = words(1);
  sotjarn_open(answerAt, ...buffer(ROWS), ...buffer(POS), ...buffer(OSP), survey, ...buffer(PLAN), ...buffer(STATE));
  const [refused, written] = words(2);
  mustAnswer(answer(2), [refused, written], refused);
  mustWrite(STATE, written);
}

function turn() {
  const [survey, given, quantum] = words(3);
  sotjarn_turn(answerAt, ...buffer(ROWS), ...buffer(POS), ...buffer(OSP), survey, ...buffer(PLAN), ...buffer(STATE), given, quantum,
    ...buffer(THRESHOLD), ...buffer(OUTPUT));
  const [ending, refused, steps, stateWords, listWords] = words(5);
  mustAnswer(answer(5), [ending, refused, steps, stateWords, listWords], refused);
  mustWrite(STATE, stateWords);
  mustWrite(OUTPUT, listWords);
}

function merge() {
  const given = word();
  sotjarn_merge(answerAt, ...buffer(PLAN), ...buffer(KEPT), given, ...buffer(LIST));
  const [refused, written] = words(2);
  mustAnswer(answer(2), [refused, written], refused);
  mustWrite(KEPT, written);
}

function report() {
  const given = word();
  sotjarn_report(answerAt, ...buffer(KEPT), given, ...buffer(REPORT));
  const [refused, written] = words(2);
  mustAnswer(answer(2), [refused, written], refused);
  mustWrite(REPORT, written);
}

const tables = [ROWS, POS, OSP, REPORT];

function mustMake(refused, lengths) {
  sotjarn_make(answerAt, ...buffer(UPLOAD), ...tables.flatMap(buffer));
  mustAnswer(answer(5), [refused, ...lengths], refused);
}

function make() {
  const [refused, ...lengths] = words(5);
  mustMake(refused, lengths);
  tables.forEach((number, i) => mustWrite(number, lengths[i]));
}

// Tables of so many stems must be made, by the rule of STEMS.
function makeStems() {
  const many = word();
  mustMake(0, [4 * many, many, many, 0]);
  const numbers = Array.from({ length: many }, (_, i) => i);
  const written = [numbers.flatMap(stem), numbers, numbers];
  written.forEach((made, i) => {
    right[tables[i]] = [...made, ...right[tables[i]].slice(made.length)];
  });
}

// Queues. An entry's layout is the same here as on machines of 64 bits; a number of 64 bits is a BigInt.

const wide = ([low, high]) => BigInt(low) | (BigInt(high) << 32n);

function padded(room) {
  const many = word();
  if (many > room) fail('the file has more words than an entry');
  return [...words(many), ...new Array(room - many).fill(0)];
}

const entry = () => [...words(5), ...padded(PLAN_ROOM), ...padded(STATE_ROOM)];

const entriesOf = (number) => [roomAt(number) + 4 * GUARDS, right[number].length / ENTRY_WORDS];

function entries() {
  const [number, count, many] = words(3);
  const given = Array.from({ length: many }, entry).flat();
  lend(number, [...given, ...new Array(count * ENTRY_WORDS - given.length).fill(0)]);
}

function mustChange() {
  for (let left = word(); left > 0; left -= 1) {
    const [number, place] = words(2);
    if (number !== LINE && number !== ASIDE) fail('the buffer is none of entries');
    right[number].splice(place * ENTRY_WORDS, ENTRY_WORDS, ...entry());
  }
}

function queued() {
  const [refused, line, aside] = words(3);
  mustAnswer(answer(3), [refused, line, aside], refused);
  mustChange();
}

function join() {
  const [survey, line, aside, owner, ...allowance] = words(6);
  sotjarn_join(answerAt, ...buffer(ROWS), ...buffer(POS), ...buffer(OSP), survey, ...entriesOf(LINE), line, ...entriesOf(ASIDE), aside, owner,
    wide(allowance), ...buffer(PLAN), ...buffer(STATE));
  queued();
}

function serve() {
  const [survey, line, aside, quantum] = words(4);
  sotjarn_serve(answerAt, ...buffer(ROWS), ...buffer(POS), ...buffer(OSP), survey, ...entriesOf(LINE), line, ...entriesOf(ASIDE), aside, quantum,
    ...buffer(THRESHOLD), ...buffer(OUTPUT));
  const expected = words(10); // ending, refused, steps, owner, left in two words, state words, list words, and both counts
  mustAnswer(answer(10), expected, expected[1]);
  mustWrite(OUTPUT, expected[7]);
  mustChange();
}

function topUp() {
  const [line, aside, owner, ...amount] = words(5);
  sotjarn_top_up(answerAt, ...entriesOf(LINE), line, ...entriesOf(ASIDE), aside, owner, wide(amount));
  queued();
}

// Views.

const seen = [SEEN_ROWS, SEEN_POS, SEEN_OSP];

function mustView(membership, refused, lengths) {
  sotjarn_view(answerAt, ...buffer(ROWS), ...buffer(POS), ...buffer(OSP), ...buffer(GRANT), membership, ...seen.flatMap(buffer));
  mustAnswer(answer(4), [refused, ...lengths], refused);
}

function viewSome() {
  const [membership, refused, ...lengths] = words(5);
  mustView(membership, refused, lengths);
  seen.forEach((number, i) => mustWrite(number, lengths[i]));
}

// The view must be the tables themselves.
function viewAll() {
  const membership = word();
  const own = [ROWS, POS, OSP].map((number) => right[number]);
  mustView(membership, 0, own.map((lent) => lent.length));
  seen.forEach((number, i) => {
    right[number] = [...own[i], ...right[number].slice(own[i].length)];
  });
}

// A wood, grown over the buffers of a view.
function growWood() {
  const [seed, stems, year, refused, ...lengths] = words(7);
  sotjarn_grow(answerAt, seed, stems, year, ...seen.flatMap(buffer));
  mustAnswer(answer(4), [refused, ...lengths], refused);
  seen.forEach((number, i) => mustWrite(number, lengths[i]));
}

// Strings numbered, looked for, and asked by their numbers.

function numberStrings() {
  const [kind, refused, count, strings] = words(4);
  const each = refused === 0 ? right[ENDS].length : 0;
  sotjarn_number(answerAt, kind, ...bytesOf(STRINGS), ...buffer(ENDS), ...bytesOf(OUT), ...buffer(CUTS), ...buffer(NUMBERED), ...buffer(PLACES));
  mustAnswer(answer(3), [refused, count, strings], refused);
  right[OUT] = packed(readBytes(count), right[OUT]);
  mustWrite(CUTS, strings);
  mustWrite(NUMBERED, each);
  mustWrite(PLACES, each);
}

function findString() {
  const [kind, refused, present, number] = words(4);
  sotjarn_find(answerAt, kind, ...bytesOf(STRINGS), ...buffer(ENDS), ...bytesOf(SOUGHT));
  mustAnswer(answer(3), [refused, present, number], refused);
}

function stringOf() {
  const [kind, number, refused, ...bounds] = words(6);
  sotjarn_string(answerAt, kind, ...bytesOf(STRINGS), ...buffer(ENDS), number);
  mustAnswer(answer(4), [refused, ...bounds], refused);
}

// Every word of every buffer, and beside it, must be right.
function compare() {
  for (let number = 0; number < BUFFERS; number += 1) {
    const found = lent(number);
    withGuards(right[number]).forEach((value, i) => {
      if (found[i] !== value) fail(`a word in or beside buffer ${number} is not as it must be`);
    });
  }
}

const lending = { [SET]: set, [FILL]: fill, [STEMS]: stems, [SHUFFLED]: shuffled, [ENTRIES]: entries, [BYTES]: setBytes, [FILL_BYTES]: fillBytes };
const calling = {
  [OPEN]: open, [TURN]: turn, [MERGE]: merge, [MAKE]: make, [MAKE_STEMS]: makeStems, [JOIN]: join, [SERVE]: serve, [TOP_UP]: topUp,
  [VIEW]: viewSome, [VIEW_ALL]: viewAll, [GROW]: growWood, [REPORT_ON]: report, [NUMBER]: numberStrings,
  [FIND]: findString, [STRING]: stringOf,
};

for (let number = 0; number < BUFFERS; number += 1) lend(number, []);
while (at < bytes.byteLength) {
  const instruction = word();
  if (instruction in calling) {
    calling[instruction]();
    compare();
    calls += 1;
  } else if (instruction in lending) lending[instruction]();
  else fail('there is no such instruction');
}
if (refusals.slice(1).includes(0)) fail('some refusal never came');
console.log(`${calls} calls, ${refusals[0]} served, as by the proved library`);
