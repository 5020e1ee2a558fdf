// What a record says of calls and of what the server held: the lamps look at it, and the ages stand beside the reports.

// The path that an event asks for, as the record prints it.
function askedPath(turn) {
  const words = turn.event?.action?.what.split(" ") || [];
  return pathWords((words[0] === "observe" ? words[1] : words[2]) || "");
}

// The body that an event asks for, in hex.
function askedBody(turn) {
  const words = turn.event?.action?.what.split(" ") || [];
  return hexOf(words.slice(3).join(" "));
}

const hexIn = (hex) => (hex === "-" ? "" : hex);

// Calls by their numbers: each { path, body, begun }. What paths held: each { path, version, hex, until, untilAt },
// with the turn that ended it and its moment. Reports: each with what was `asked`, its turn `now`, what the path `was`
// of that version, and its age. Requests of calls that were applied: each with what the path held `before`, and what
// it `made`. Conditional writes of strangers: each { path, tag, isApplied }.
function factsOf(turns) {
  const facts = { calls: new Map(), held: [], reports: [], applied: [], writes: [] };
  turns.forEach((turn, now) => turn.things.forEach((it) => noteFact(facts, turn, now, it)));
  return facts;
}

function noteFact(facts, turn, now, it) {
  if (it.kind === "takes") {
    facts.calls.set(it.call, { path: askedPath(turn), body: askedBody(turn), begun: now });
  }
  if (it.kind === "applied" && it.isCall) {
    facts.applied.push({ ...it, now, before: holding(facts, it.path), made: null });
  }
  if (it.kind === "stranger" || it.kind === "applied") noteWrite(facts, now, it);
  if (it.kind === "holds" || it.kind === "gone") noteChange(facts, turn, now, it);
  if (it.kind !== "report") return;
  const asked = facts.calls.get(it.call) || { path: null, begun: now };
  const was = facts.held.findLast((held) => held.path === asked.path && held.version === it.version);
  facts.reports.push({ ...it, asked, now, at: turn.at, was, age: was && turn.at - (was.untilAt ?? turn.at) });
}

// A write with one entity-tag in If-Match (RFC 7252, section 5.10.8.1), and whether it is applied as it comes.
function noteWrite(facts, now, it) {
  if (it.kind === "stranger") {
    const found = / (?:PUT|POST|DELETE) ([^ ,]+), [^"]*If-Match ([0-9a-f]+)/.exec(it.words);
    const isOne = it.words.split("If-Match").length === 2;
    if (found && isOne) facts.writes.push({ path: found[1], tag: found[2], now, isApplied: false });
    return;
  }
  const last = facts.writes.at(-1);
  if (last && last.now === now && last.path === it.path && !it.isCall) last.isApplied = true;
}

function noteChange(facts, turn, now, it) {
  const old = holding(facts, it.path);
  if (old) Object.assign(old, { until: now, untilAt: turn.at });
  const by = facts.applied.at(-1);
  if (by && by.now === now && by.path === it.path) by.made = it;
  if (it.kind === "holds") facts.held.push({ ...it, until: null, untilAt: null });
}

// What a path holds so far.
function holding(facts, path) {
  return facts.held.findLast((it) => it.path === path && it.until === null);
}

// Each report of a run gets its age: how long ago, in milliseconds, the path held it last; 0 where it still holds it.
function markAges(turns) {
  const reports = turns.flatMap((turn) => turn.things.filter((it) => it.kind === "report"));
  factsOf(turns).reports.forEach(({ age }, i) => { reports[i].age = age; });
}

const msWords = (ms) => (ms < 1000 ? `${ms} ms` : `${String(ms / 1000)} s`);

const ageWords = (age) => (age === 0 ? "still held" : `${msWords(age)} old`);
