// Time, networks that are shaken, and what a broken stack would do.

const STEP_MS = 700;
const SHAKEN_DATAGRAMS = 80;

let timer = null;

// ---- Time ----

function stop() {
  clearTimeout(timer);
  timer = null;
}

// Whether something is drawn of a turn.
const isSeen = (turn) => turn.things.length || turn.event.delivers !== undefined || turn.event.action;

// Shows the next event of which something is seen.
function step() {
  if (!result.made?.turns.length) return;
  const { turns } = result.made;
  if (state.shown >= turns.length) state.shown = 0;
  do state.shown += 1; while (state.shown < turns.length && !isSeen(turns[state.shown - 1]));
  const turn = turns[state.shown - 1];
  refresh();
  say(turnWords(turn));
}

// What a screen reader says of a turn.
function turnWords(turn) {
  const wordsOf = (it) => (it.kind === "out" ? `datagram ${it.n}, ${shortWords(it.words)}` : noteOf(it, turn)?.text);
  const words = turn.things.map(wordsOf);
  const arrives = turn.event.delivers === undefined ? "" : `datagram ${turn.event.delivers} arrives. `;
  return `${msWords(turn.at)}: ${arrives}${words.filter(Boolean).join(". ")}`;
}

function play() {
  if (timer) {
    stop();
    refresh();
    return;
  }
  if (!result.made) return;
  const next = () => {
    step();
    const isOver = state.shown >= result.made.turns.length;
    timer = isOver ? null : setTimeout(next, STEP_MS / Number($("speed").value));
    $("play").textContent = timer ? "Pause" : "Play";
  };
  next();
}

function showUpTo(count) {
  stop();
  state.shown = count;
  if (result.made) refresh();
}

// ---- What a broken stack would do ----

function showBroken(number) {
  const broken = BROKEN[number];
  take(storyOf(broken));
  state.broken = number;
  result.made = breakRun(result.run, broken);
  markAges(result.made.turns);
  $("madeup").hidden = false;
  const seen = `The lamp shows that it would be seen: “${broken.part}”.`;
  $("madeup").textContent = `Made up: ${broken.say}. No run of this stack does that. ${seen}`;
  refresh();
  say($("madeup").textContent);
}

// ---- Shaking ----

// Three of ten datagrams are lost, two come twice, and any may be late by seconds.
function shakenFate() {
  const late = () => {
    const ms = Math.random() < 0.3 ? 10 ** (1 + 3.6 * Math.random()) : state.latency * (0.5 + Math.random());
    return clamp(ms, LEAST_DELAY_MS, MAX_LATENCY_MS);
  };
  const dice = Math.random();
  return dice < 0.3 ? [] : dice < 0.5 ? [late(), late()].sort((a, b) => a - b) : [late()];
}

function shaken() {
  const numbers = Array.from({ length: SHAKEN_DATAGRAMS }, (_, i) => i);
  return Object.fromEntries(numbers.flatMap((i) => [[`c${i}`, shakenFate()], [`s${i}`, shakenFate()]]));
}

function shake() {
  change({ fates: shaken() });
  const keys = new Set(result.run?.outs.map((it) => it.key));
  state.fates = Object.fromEntries(Object.entries(state.fates).filter(([key]) => keys.has(key)));
  writeLink();
}

async function shakeMany(count) {
  let datagrams = 0;
  for (let i = 1; i <= count; i += 1) {
    const fates = shaken();
    const it = simulate(module_, actionsOf(state.lines), (out) => fates[out.key] || [state.latency], plainPaths());
    if (!it.run) return;
    datagrams += it.run.outs.length;
    if (brokenIn(promisesIn(it.run.turns)).length) {
      change({ fates });
      return;
    }
    $("shaken").textContent = `held in ${i} of ${i} networks, ${datagrams} datagrams`;
    if (i % 5 === 0) await new Promise((go) => setTimeout(go));
  }
}
