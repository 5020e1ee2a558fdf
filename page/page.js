// The page: a run, and how much of it is shown.

const NARROW_PX = 700;

let module_;
let result = {};
let layout;

// ---- Running ----

function run() {
  stop();
  const isScript = state.script !== null;
  const fresh = isScript ? runScript(module_, state.script, plainPaths())
    : simulate(module_, actionsOf(state.lines), fateOf, plainPaths());
  if (isScript && fresh.run) Object.assign(state, readInto(fresh));
  show(fresh);
  writeLink();
}

// Shows a run; where it is refused, says so, and leaves the last one as it is.
function show(fresh) {
  showRefusal(fresh.refusal);
  $("madeup").hidden = true;
  if (fresh.run) {
    markAges(fresh.run.turns);
    result = { ...fresh, made: fresh.run, fates: state.fates };
  } else if (fresh.refusal.key) state.fates = result.fates || {};
  fill("lines", state.lines);
  fill("plains", state.plains);
  $("caption").textContent = captionWords();
  $("latency").value = Math.log10(state.latency);
  $("latency-say").textContent = msWords(state.latency);
  for (const it of document.querySelectorAll("[data-story]")) {
    it.setAttribute("aria-current", String(it.dataset.story === state.story));
  }
  fill("script", state.script ?? result.script ?? "");
  if (!result.run) return;
  $("native").textContent = module_.lines(result.script, plainPaths()).text;
  $("chart").textContent = module_.chart(result.script, plainPaths()).text;
  refresh();
}

function captionWords() {
  if (state.story) return STORIES[state.story].say;
  if (state.script === null) return "A run of your own. The link in the address bar holds it.";
  return "A script, played as it is. The link in the address bar holds it. Once you take a datagram, the page's own " +
    "ticks stand in the place of the script's.";
}

function fill(id, text) {
  if ($(id).value !== text) $(id).value = text;
}

// An event that breaks a premise is refused: which premise, and where.
function showRefusal(refusal) {
  const isLine = refusal && refusal.line >= 0 && !refusal.event;
  $("say").textContent = isLine ? `line ${refusal.line + 1}: ${refusal.say}` : "";
  $("lines").setAttribute("aria-invalid", String(Boolean(isLine && state.script === null)));
  $("script").setAttribute("aria-invalid", String(Boolean(refusal && state.script !== null)));
  if (!refusal || isLine) {
    $("refusal").textContent = "";
    return;
  }
  const premise = refusal.premise ? ` This breaks the premise ${refusal.premise}.` : "";
  const where = refusal.event ? `“${cut(refusal.event, 60)}” is refused: ` : "";
  $("refusal").textContent = `${where}${refusal.say}.${premise}`;
}

// ---- Showing ----

// Shows as much of the run as is to be seen.
function refresh() {
  const turns = result.made.turns.slice(0, state.shown);
  layout = layOut(turns, state.latency);
  const width = $("ladder").parentElement.clientWidth;
  drawLadder($("ladder"), layout, width < NARROW_PX ? NARROW : layout.strangers.length ? CROWDED : WIDE, does);
  showLamps(turns);
  showReports(turns);
  showHeld(turns);
  inspect();
  const last = turns[turns.length - 1];
  const count = `${turns.length} of ${result.made.turns.length} events`;
  $("clock").textContent = last ? `${msWords(last.at)}, ${count}` : "before the first event";
  $("play").textContent = timer ? "Pause" : "Play";
}

function item(tag, text, className) {
  const it = document.createElement(tag);
  it.textContent = text;
  if (className) it.className = className;
  return it;
}

function showLamps(turns) {
  // (a record that is made up may end before the run)
  const isAll = turns.length === result.made.turns.length;
  const events = isAll ? result.run.turns.length : turns.length;
  $("lamps").replaceChildren(...promisesIn(turns, events).map(lampOf));
}

const LAMP_SIGNS = { good: "✓", bad: "✕", none: "" };

function lampOf({ name, parts }) {
  const light = parts.some((it) => it.broken) ? "bad" : parts.some((it) => it.seen) ? "good" : "none";
  const li = document.createElement("li");
  li.dataset.lamp = light;
  const lamp = item("span", LAMP_SIGNS[light], `lamp ${light}`);
  lamp.setAttribute("aria-hidden", "true");
  const words = document.createElement("div");
  const isAlone = parts.length === 1;
  words.append(item("b", light === "bad" ? `${name}: broken` : name));
  words.append(...parts.map((it) => partWords(it, isAlone ? "" : `${it.name}: `)).filter(Boolean));
  if (light === "none") words.append(item("div", "nothing to look at yet", "soft"));
  li.append(lamp, words);
  return li;
}

// What is seen of a part of a promise; nothing where there is nothing to look at.
function partWords({ seen, broken, say: good, fault }, name) {
  if (broken) return item("div", `${name}${fault || `broken ${broken} of ${seen} times`}`, "wrong");
  return seen ? item("div", `${name}${good}`, "soft") : null;
}

// A report in the list, with how old it is.
function listedReport(turn, it) {
  const held = it.age === 0 ? `, ${ageWords(it.age)}` : "";
  return `${msWords(turn.at)}: ${reportWords(it)}${held}`;
}

// The reports as they come; those that are there stay, so that a screen reader says the new ones alone.
function showReports(turns) {
  const said = turns.flatMap((turn) => turn.things.filter((it) => it.kind === "report")
    .map((it) => listedReport(turn, it)));
  const list = $("reports");
  said.forEach((text, i) => {
    if (!list.children[i]) list.append(item("li", text));
    else if (list.children[i].textContent !== text) list.children[i].textContent = text;
  });
  while (list.children.length > said.length) list.lastChild.remove();
}

// What the server holds at each path, over time.
function showHeld(turns) {
  const paths = new Map();
  for (const turn of turns) {
    for (const it of turn.things.filter((thing) => thing.kind === "holds" || thing.kind === "gone")) {
      if (!paths.has(it.path)) paths.set(it.path, []);
      const what = it.kind === "gone" ? "gone" : bodyWords(it.hex, 16);
      const version = item("span", `${msWords(turn.at)}: v${it.version} ${what}`, "version");
      version.style.borderColor = colorOf(it.version);
      paths.get(it.path).push(version);
    }
  }
  const parts = [...paths].flatMap(([path, versions]) => [item("h3", path), ...versions]);
  $("held").replaceChildren(...(parts.length ? parts : [item("p", "nothing", "soft")]));
}
