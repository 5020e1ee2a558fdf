// The network: what the page does with each datagram of a run.

const HORIZON_MS = 135_000;
const GRID_MS = 1_000;
const RESENDS_MS = [2_000, 6_000, 14_000, 30_000, 62_000];
const MOST_DATAGRAMS = 400;
const MOST_ROUNDS = 500;

// The lines of the page: `M WORDS..`, without ticks and deliveries, in the order of their moments. `{2500a}` stands for
// so many letters.
function actionsOf(lines) {
  const actions = [];
  lines.split("\n").forEach((line, number) => {
    if (line.trim() === "") return;
    const text = line.replace(/\{(\d{1,5})(\w?)\}/g, (_, count, letter) => filler(Number(count), letter));
    const found = /^(\d+) (.*)$/.exec(text);
    actions.push({ number, at: found ? Number(found[1]) : 0, text, what: found ? found[2] : text, isLine: !!found });
  });
  return actions.sort((a, b) => a.at - b.at || a.number - b.number);
}

function filler(count, letter) {
  return (letter || "abcdefghijklmnopqrstuvwxyz").repeat(count).slice(0, count);
}

// The events in the order of their moments: actions first, then deliveries, then ticks.
function inOrder(events, ticks) {
  const list = [...events];
  for (const at of ticks) {
    for (const [order, side] of ["client", "server"].entries()) {
      list.push({ at, rank: 2, order, text: `${at} tick ${side}`, isTick: true });
    }
  }
  return list.sort((a, b) => a.at - b.at || a.rank - b.rank || a.order - b.order);
}

const scriptOf = (list) => list.map((it) => `${it.text}\n`).join("");

// A list of events that the module refuses: which one, and why. What was given out before it is asked for, too.
function refusalOf(module, list, answer, plains) {
  const found = /(bad line|not legal) (\d+)/.exec(answer.text);
  if (!found) {
    const isWords = answer.status === ENDED.words;
    return { line: -1, say: isWords ? "the plain paths can't be read, or are more than 16" : "no memory is left" };
  }
  const index = Number(found[2]) - (found[1] === "bad line" ? 1 : 0);
  const line = list[index]?.action?.number ?? -1;
  if (found[1] === "bad line") return { line, index, say: "this line can't be read" };
  const before = module.all(scriptOf(list.slice(0, index)), plains);
  const outs = readRecord(before.text).outs;
  return { line, index, event: list[index].text, ...whyNotLegal(list.map((it) => it.text), index, outs) };
}

// Runs a list of events. The record names the event of each turn.
function runList(module, list, plains) {
  const answer = module.all(scriptOf(list), plains);
  if (answer.status !== ENDED.done) return { refusal: refusalOf(module, list, answer, plains) };
  const run = readRecord(answer.text);
  run.turns.forEach((turn, i) => { turn.event = list[i]; });
  return { run, list };
}

// Plans what happens to the datagrams that have no plan yet and were given out before the first event that this adds:
// those before it keep their numbers.
function planRound(run, planned, delaysOf, events, addTick) {
  const open = run.outs.filter((it) => !planned.has(it.key) && isBetween(it));
  let first = Infinity;
  for (const out of open) {
    for (const delay of delaysOf(out)) first = Math.min(first, out.at + delay);
    if (isFresh(out)) first = Math.min(first, out.at + RESENDS_MS[0]);
  }
  for (const out of open.filter((it) => it.at < first)) {
    planned.add(out.key);
    for (const delay of delaysOf(out)) {
      const at = out.at + delay;
      events.push({ at, rank: 1, order: events.length, text: `${at} deliver ${out.n}`, delivers: out.n, delay });
      addTick(at);
    }
    if (isFresh(out)) RESENDS_MS.forEach((ms) => addTick(out.at + ms));
  }
  return open.length > 0;
}

// Leaves out the ticks that nothing comes of, where the run stays the same.
function withoutIdleTicks(module, ran, plains) {
  const told = (run) => JSON.stringify(run.turns.filter((it) => it.things.length).map((it) => [it.at, it.things]));
  const list = ran.list.filter((it, i) => !(it.isTick && ran.run.turns[i].things.length === 0));
  const again = runList(module, list, plains);
  return again.run && told(again.run) === told(ran.run) ? again : ran;
}

// Plays the actions over a network that does this with each datagram: it arrives after each of these milliseconds, or
// never. Answers { run, list, script }, or { refusal }.
function simulate(module, actions, delaysOf, plains) {
  const wrong = actions.find((it) => !it.isLine);
  if (wrong) return { refusal: { line: wrong.number, say: "a line begins with its moment in milliseconds" } };
  const end = Math.max(0, ...actions.map((it) => it.at)) + HORIZON_MS;
  const events = actions.map((action, order) => ({ at: action.at, rank: 0, order, text: action.text, action }));
  const ticks = new Set(actions.map((it) => it.at));
  for (let at = 0; at <= end; at += GRID_MS) ticks.add(at);
  const addTick = (at) => { if (at <= end) ticks.add(at); };
  const planned = new Set();
  for (let rounds = 0; ; rounds += 1) {
    const ran = runList(module, inOrder(events, ticks), plains);
    if (ran.refusal) return ran;
    const isCut = ran.run.outs.length > MOST_DATAGRAMS || rounds > MOST_ROUNDS;
    if (isCut || !planRound(ran.run, planned, delaysOf, events, addTick)) {
      const short = withoutIdleTicks(module, ran, plains);
      return { ...short, script: scriptOf(short.list), isCut };
    }
  }
}

// A script as `coap sim` takes it, with its own ticks and deliveries.
function runScript(module, script, plains) {
  const lines = script === "" ? [] : script.replace(/\n$/, "").split("\n");
  const list = lines.map((text, number) => {
    const [at, word, rest] = text.split(" ");
    const delivers = word === "deliver" ? Number(rest) : undefined;
    const isAction = !["deliver", "tick", "stranger"].includes(word);
    const what = text.replace(/^\d+ /, "");
    return { at: Number(at), text, delivers, action: isAction ? { number, what } : undefined, isTick: word === "tick" };
  });
  const ran = runList(module, list, plains);
  if (ran.run) {
    for (const turn of ran.run.turns) {
      const out = ran.run.outs[turn.event.delivers];
      if (out) turn.event.delay = turn.at - out.at;
    }
  }
  return { ...ran, script };
}

// What a script asks for and what its network does, as the page has these: the ticks are left out, and each datagram
// arrives as late as the script has it. A delivery at the moment of the sending comes one millisecond late.
function readInto({ run, list }) {
  const lines = list.filter((it) => !it.isTick && it.delivers === undefined).map((it) => it.text).join("\n");
  const fates = Object.fromEntries(run.outs.filter(isBetween).map((it) => [it.key, []]));
  for (const { event } of run.turns) {
    const out = run.outs[event.delivers];
    if (out) fates[out.key].push(Math.max(event.delay, 1));
  }
  return { lines, fates };
}
