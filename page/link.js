// What the page shows: the state, the link that holds it, and what changes it.

const $ = (id) => document.getElementById(id);
const MOST_DELAY_MS = 120_000;
const LEAST_DELAY_MS = 1;
const DOUBLED_MS = 900;
const USUAL_LATENCY_MS = 40;
const MOST_LATENCY_MS = 5_000;

// What is asked for and what the network does, or a script that is played as it is: the link holds these. `shown` is
// how many turns are shown, and `broken` the number of the made up record that is shown.
const state = {
  story: null, lines: "", plains: "", latency: USUAL_LATENCY_MS, fates: {}, script: null, chosen: null, shown: Infinity,
  broken: -1,
};

const plainPaths = () => state.plains.trim().split(/\s+/).join("\n");
const fateOf = (out) => state.fates[out.key] || [state.latency];

// ---- The link ----

function linkOf({ lines, plains, latency, fates, script }) {
  const more = plains ? `&p=${encodeURIComponent(plains)}` : "";
  if (typeof script === "string") return `#s=${encodeURIComponent(script)}${more}`;
  const each = Object.entries(fates).map(([key, delays]) => `${key}:${delays.join(",") || "x"}`).join(";");
  return `#l=${latency || USUAL_LATENCY_MS}&a=${encodeURIComponent(lines)}${more}${each ? `&f=${each}` : ""}`;
}

function writeLink() {
  try {
    history.replaceState(null, "", linkOf(state));
  } catch {
    location.hash = linkOf(state);
  }
}

// The fates that a link names: c0:x;s1:40,5200.
function fatesIn(words) {
  const fates = {};
  for (const it of words.split(";")) {
    const [key, delays] = it.split(":");
    if (!/^[cs]\d+$/.test(key) || !delays) continue;
    const delayOf = (ms) => clamp(Number(ms) || LEAST_DELAY_MS, LEAST_DELAY_MS, MOST_DELAY_MS);
    fates[key] = delays === "x" ? [] : delays.split(",").map(delayOf);
  }
  return fates;
}

function readLink() {
  const found = new URLSearchParams(location.hash.slice(1).replace(/\+/g, "%2B"));
  if (!found.has("a") && !found.has("s")) return false;
  const latency = clamp(Number(found.get("l")) || USUAL_LATENCY_MS, LEAST_DELAY_MS, MOST_LATENCY_MS);
  const lines = found.get("a") || "";
  take({ lines, plains: found.get("p") || "", latency, fates: fatesIn(found.get("f") || ""), script: found.get("s") });
  return true;
}

// ---- Changes ----

// Takes what is asked for and what the network does, or a script, and runs it.
function take(it) {
  Object.assign(state, { story: null, chosen: null, shown: Infinity, broken: -1 });
  Object.assign(state, { lines: it.lines, plains: it.plains || "", latency: it.latency || USUAL_LATENCY_MS });
  Object.assign(state, { fates: structuredClone(it.fates), script: it.script ?? null });
  state.story = Object.keys(STORIES).find((name) => linkOf(STORIES[name]) === linkOf(state)) || null;
  run();
}

// What is changed is the network or what is asked for: a script, which has been read into these, is not followed then.
function change(it) {
  take({ ...state, script: null, ...it });
}

function setFate(out, delays) {
  const sorted = [...delays].sort((a, b) => a - b);
  const fates = { ...state.fates, [out.key]: sorted };
  if (sorted.length === 1 && sorted[0] === state.latency) delete fates[out.key];
  change({ fates });
  choose(out.key);
  focusChosen();
  say(datagramSay(out.key));
}

function later(out, ms) {
  const [first, ...others] = fateOf(out).length ? fateOf(out) : [state.latency];
  setFate(out, [clamp(first + ms, LEAST_DELAY_MS, MOST_DELAY_MS), ...others]);
}

const does = {
  fateOf,
  isChosen: (key) => state.chosen === key,
  choose,
  lose: (out) => setFate(out, []),
  once: (out) => setFate(out, [state.latency]),
  twice: (out) => {
    const first = fateOf(out)[0] || state.latency;
    setFate(out, [first, clamp(first + DOUBLED_MS, LEAST_DELAY_MS, MOST_DELAY_MS)]);
  },
  drag: (event, sent, arrival, ends) => {
    const done = (delay) => {
      const delays = [...fateOf(sent.out)];
      delays[Math.max(delays.indexOf(arrival.delay), 0)] = delay;
      setFate(sent.out, delays);
    };
    dragHead($("ladder"), layout, event, sent, arrival, ends, MOST_DELAY_MS, done);
  },
};
