// The record of a run, read from the lines that the module prints of all that happens.

const ENDS = { client: "127.0.0.1:40001", server: "127.0.0.1:5683" };

const NUMBERED = new Set(["refused", "forgets", "puts", "removes"]);

// What the words of a line say.
const READERS = {
  takes: (words) => ({ call: Number(words[1]) }),
  applied: (words) => ({
    isCall: /^\d+$/.test(words[1]), call: Number(words[1]), method: words[2], path: words[3], version: Number(words[4]),
  }),
  holds: (words) => ({ version: Number(words[1]), path: words[2], hex: words[3] }),
  gone: (words) => ({ version: Number(words[1]), path: words[2] }),
  report: (words) => readReport(words),
  stranger: (words) => ({ end: words[1], from: words[2], words: words.slice(3).join(" ") }),
  out: (words) => ({
    n: Number(words[1]), end: words[2], to: words[3], first: Number(words[4]), hex: words[5],
    words: words.slice(6).join(" "),
  }),
};

// A report. The entity-tag of a body or a value is its version.
function readReport([, call, what, ...rest]) {
  const report = { call: Number(call), what, rest };
  if (what !== "body" && what !== "value") return report;
  const [tag, , hex] = what === "value" ? rest.slice(1) : rest;
  return { ...report, version: tag === "-" ? null : parseInt(tag, 16), hex };
}

// The turns of a run, { index, at, things } each, and the datagrams in them.
function readRecord(text) {
  const turns = [];
  const outs = [];
  const counts = { client: 0, server: 0 };
  for (const line of text.split("\n").filter((it) => it !== "")) {
    const words = line.split(" ");
    const kind = words[0];
    if (kind === "at") {
      turns.push({ index: Number(words[1]), at: Number(words[2]), things: [] });
      continue;
    }
    const turn = turns[turns.length - 1];
    const thing = { kind, ...(NUMBERED.has(kind) ? { number: Number(words[1]) } : READERS[kind]?.(words)) };
    if (kind === "out") {
      thing.at = turn.at;
      thing.k = counts[thing.end]++;
      thing.key = `${thing.end[0]}${thing.k}`;
      outs.push(thing);
    }
    turn.things.push(thing);
  }
  return { turns, outs };
}

// Whether a datagram goes from one end to the other.
function isBetween(out) {
  return out.to === (out.end === "client" ? ENDS.server : ENDS.client);
}

// A Confirmable message that is no copy: its end sends it again until it is acknowledged.
function isFresh(out) {
  return out.first === out.n && out.words.startsWith("CON");
}

// A path as the module prints it: percent-encoded but for what a segment may have (RFC 3986, section 3.3).
function pathWords(text) {
  const plain = /[A-Za-z0-9\-._~!$&'()*+,;=:@/]/;
  const word = (byte) => {
    const sign = String.fromCharCode(byte);
    return byte < 128 && plain.test(sign) ? sign : `%${byte.toString(16).toUpperCase().padStart(2, "0")}`;
  };
  return [...bytesOf(text.replace(/^\//, ""))].map(word).join("") || "/";
}
