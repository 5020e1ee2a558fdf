// The module: its memory and its calls. Nothing here is proved.

const MEMORY_FULL = 2 ** 31;
const PAGE_BYTES = 65536;
const ALIGNMENT = 16;
const FIRST_ROOM = 65536;

const PRINTING = { lines: 0, chart: 1, all: 2 };
const ENDED = { done: 0, refused: 1, words: 2, small: 3, memory: 4 };

// Memory for the module: blocks one after the other. All are given back when the next call begins. `heap_take` and
// `heap_give` are the module's two imports; crates/page_heap assumes their contracts.
function heapOf(getMemory) {
  let next = 0;
  const take = (size) => {
    const at = next;
    const end = Math.ceil((at + Math.max(size, 1)) / ALIGNMENT) * ALIGNMENT;
    if (end >= MEMORY_FULL) return 0;
    const lacks = end - getMemory().buffer.byteLength;
    if (lacks > 0 && !grows(getMemory(), Math.max(Math.ceil(lacks / PAGE_BYTES), 64))) return 0;
    next = end;
    return at;
  };
  // The answer is a flag and an address, which is not 0 where there is no memory either.
  const heap_take = (to, bytes, _alignment) => {
    const at = bytes < BigInt(MEMORY_FULL) ? take(Number(bytes)) : 0;
    const view = new DataView(getMemory().buffer);
    view.setBigUint64(Number(to), at ? 1n : 0n, true);
    view.setBigUint64(Number(to) + 8, BigInt(at || ALIGNMENT), true);
  };
  const reset = (from) => { next = Math.ceil(from / ALIGNMENT) * ALIGNMENT; };
  return { reset, take, imports: { heap_take, heap_give() {} } };
}

// A 64-bit memory takes a BigInt here, and a number in engines that are older than its standard.
function grows(memory, pages) {
  for (const delta of [BigInt(pages), pages]) {
    try {
      memory.grow(delta);
      return true;
    } catch {
      // There is no more, or it is the other type.
    }
  }
  return false;
}

// The module's calls. Each answers { status, text }.
async function openModule(bytes) {
  let exported;
  const heap = heapOf(() => exported.memory);
  const { instance } = await WebAssembly.instantiate(bytes, { heap: heap.imports });
  exported = instance.exports;
  const base = Number(exported.__heap_base.value);
  // A slice crosses as an address and a length. Where the room is too small, the call says how much it wants.
  const call = (name, slices, flags, roomLen) => {
    heap.reset(base);
    const used = heap.take(8);
    const places = slices.map((slice) => [heap.take(slice.length), slice]);
    const room = heap.take(roomLen);
    const memory = new Uint8Array(exported.memory.buffer);
    for (const [at, slice] of places) memory.set(slice, at);
    const words = places.flatMap(([at, slice]) => [BigInt(at), BigInt(slice.length)]);
    const status = exported[name](...words, ...flags, BigInt(room), BigInt(roomLen), BigInt(used));
    const length = Number(new DataView(exported.memory.buffer).getBigUint64(used, true));
    if (status === ENDED.small && length > roomLen) return call(name, slices, flags, length);
    const text = new TextDecoder("latin1").decode(new Uint8Array(exported.memory.buffer, room, length));
    return { status, text };
  };
  const sim = (script, plains, printing) =>
    call("ks_sim", [bytesOf(script), bytesOf(plains || "")], [printing], FIRST_ROOM);
  return {
    lines: (script, plains) => sim(script, plains, PRINTING.lines),
    chart: (script, plains) => sim(script, plains, PRINTING.chart),
    all: (script, plains) => sim(script, plains, PRINTING.all),
    show: (datagram) => call("ks_show", [datagram], [], FIRST_ROOM),
  };
}

function bytesOf(text) {
  return typeof text === "string" ? new TextEncoder().encode(text) : text;
}

function bytesOfHex(hex) {
  if (hex === "-" || hex === "") return new Uint8Array();
  return Uint8Array.from(hex.match(/../g), (pair) => parseInt(pair, 16));
}

function hexOf(text) {
  return [...bytesOf(text)].map((byte) => byte.toString(16).padStart(2, "0")).join("");
}
