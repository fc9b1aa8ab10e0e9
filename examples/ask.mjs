// The small scheme in node: the library is loaded, builds the index of five stands, and is asked for the best two near a place whose name
// begins with "ki". First `tools/library wasm32-unknown-unknown` writes the library, then `node examples/ask.mjs` runs this.
import { readFileSync } from "node:fs";

const file = new URL("../target/wasm32-unknown-unknown/finder_c.wasm", import.meta.url);
const { instance } = await WebAssembly.instantiate(readFileSync(file));
const { memory, __heap_base, krz_build, krz_ranked } = instance.exports;

// Room for numbers in the library's memory, one behind the other, past what the library itself uses.
let past = __heap_base.value;
function room(Kind, count) {
  const at = Math.ceil(past / 8) * 8;
  past = at + count * Kind.BYTES_PER_ELEMENT;
  const wanted = Math.ceil((past - memory.buffer.byteLength) / 65536);
  if (wanted > 0) memory.grow(wanted);
  return { at, slice: [at, count], numbers: () => new Kind(memory.buffer, at, count) };
}
function lend(Kind, numbers) {
  const lent = room(Kind, numbers.length);
  lent.numbers().set(numbers);
  return lent;
}
const slices = (...rooms) => rooms.flatMap((one) => one.slice);

const stands = [
  { name: "kibo", east: 5, north: 5, score: 100 },
  { name: "kibo", east: 75, north: 75, score: 900 },
  { name: "kibori", east: 12, north: 5, score: 400 },
  { name: "kito", east: 9, north: 9, score: 400 },
  { name: "mto", east: 10, north: 9, score: 0 },
];
const bytes = new TextEncoder().encode(stands.map((stand) => stand.name).join(""));
const starts = [0];
for (const { name } of stands) starts.push(starts.at(-1) + name.length);

// The set, as include/krzewido.h has it. A slice is two arguments, where it begins and how many elements it has; a record is where it
// begins; a record that a call answers is written to where the first argument says.
const column = (Kind, key) => lend(Kind, stands.map((stand) => stand[key]));
const grid = lend(Int32Array, [0, 0, 10]);
const table = [
  ...slices(lend(Uint8Array, bytes), lend(Uint32Array, starts)),
  ...slices(column(Int32Array, "east"), column(Int32Array, "north"), column(Uint32Array, "score")),
  grid.at,
];
const index = slices(
  room(Uint32Array, stands.length),
  room(Uint32Array, 8 * (bytes.length + 1)),
  room(Uint32Array, 4 * (bytes.length + stands.length)),
  room(Uint32Array, 2 * (2 * stands.length - 1)),
);

const built = room(Uint32Array, 4);
krz_build(built.at, ...table, ...index);
const [refusal, nodes, entries, bits] = built.numbers();
console.log(`build: refusal ${refusal} nodes ${nodes} entries ${entries} bit records ${bits}`);

const typed = lend(Uint8Array, new TextEncoder().encode("ki"));
const place = lend(Int32Array, [5, 5]);
const [weight, k] = [8, 2];
const [found, values] = [room(Uint32Array, k), room(BigUint64Array, k)];
const answer = room(Uint32Array, 2);
krz_ranked(answer.at, ...table, ...index, ...typed.slice, place.at, weight, k, ...slices(found, values));
const [refused, count] = answer.numbers();
console.log(`ranked ki: refusal ${refused} count ${count}`);
for (let i = 0; i < count; i++) {
  const stand = found.numbers()[i];
  console.log(`  ${stand} ${stands[stand].name} ${values.numbers()[i]}`);
}
