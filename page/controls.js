// The buttons, fields and keys of the page, and its start.

// Adds a line to what is asked for.
function ask(words) {
  const at = clamp(Number($("moment").value) || 0, 0, 3_600_000);
  const lines = state.lines.trim() === "" ? "" : `${state.lines.replace(/\n+$/, "")}\n`;
  change({ lines: `${lines}${at} ${words}` });
  $("moment").value = at + 1000;
}

// The words of a line of the bar.
function callWords(call) {
  const path = $("path").value.trim().replace(/ /g, "%20") || "/";
  const body = $("body").value;
  const isBody = call === "put" || call === "post";
  if (call === "set") return `set ${path} ${body}`;
  if (call === "observe" || call === "remove") return `${call} ${path}`;
  if (call === "cancel") return `cancel ${lastObservation()}`;
  return `call ${call} ${path}${isBody ? ` ${body}` : ""}`;
}

// The number of the last observation: the calls and observations are numbered together.
function lastObservation() {
  const taken = (result.run?.turns || []).flatMap((turn) => turn.things.filter((it) => it.kind === "takes")
    .map((it) => ({ call: it.call, isObservation: turn.event.action?.what.startsWith("observe") })));
  return taken.findLast((it) => it.isObservation)?.call ?? 0;
}

function showDatagram() {
  const hex = $("hex").value.replace(/\s/g, "");
  $("shown").textContent = /^([0-9a-f]{2})*$/i.test(hex) ? module_.show(bytesOfHex(hex)).text : "no hex";
}

async function copyLink() {
  try {
    await navigator.clipboard.writeText(location.href);
    $("copy").textContent = "copied";
  } catch {
    $("copy").textContent = "it is in the address bar";
  }
  setTimeout(() => { $("copy").textContent = "Copy the link"; }, 1500);
}

const KEYS = {
  ArrowDown: (out, event) => later(out, event.shiftKey ? 1000 : 100),
  ArrowUp: (out, event) => later(out, event.shiftKey ? -1000 : -100),
  Delete: (out) => does.lose(out),
  Backspace: (out) => does.lose(out),
  1: (out) => does.once(out),
  2: (out) => does.twice(out),
  Enter: () => enterDatagram(),
};

function onKey(event) {
  if (event.key === "Escape") {
    leaveDatagram();
    return;
  }
  if (/^(TEXTAREA|INPUT|SELECT|BUTTON|A|SUMMARY|PRE)$/.test(event.target.tagName)) return;
  const out = event.target.closest?.(".gram") ? chosen() : null;
  const act = out ? KEYS[event.key] : { " ": play, ArrowRight: step }[event.key];
  if (!act && !{ " ": 1, ArrowRight: 1 }[event.key]) return;
  event.preventDefault();
  if (act && out) act(out, event);
  else if (event.key === " ") play();
  else step();
}

function makeStories() {
  for (const [name, story] of Object.entries(STORIES)) {
    const link = item("a", story.name, "story");
    link.href = linkOf(story);
    link.dataset.story = name;
    link.addEventListener("click", (event) => {
      event.preventDefault();
      take(story);
    });
    $("stories").append(link);
  }
}

function makeControls() {
  const on = (id, kind, act) => $(id).addEventListener(kind, act);
  on("back", "click", () => showUpTo(0));
  on("play", "click", play);
  on("step", "click", () => { stop(); step(); });
  on("all", "click", () => showUpTo(Infinity));
  on("latency", "input", () => change({ latency: clamp(10 ** $("latency").value, LEAST_DELAY_MS, MOST_LATENCY_MS) }));
  on("lines", "input", () => change({ lines: $("lines").value }));
  on("plains", "input", () => change({ plains: $("plains").value, script: state.script }));
  on("quiet", "click", () => change({ fates: {} }));
  on("shake", "click", shake);
  on("many", "click", () => shakeMany(100));
  on("broken", "click", () => showBroken((state.broken + 1) % BROKEN.length));
  on("copy", "click", copyLink);
  on("hex", "input", showDatagram);
  on("run-script", "click", () => take({ ...state, script: $("script").value }));
  on("leave", "click", () => choose(null));
  on("strange-send", "click", () => {
    ask(`stranger ${$("strange-end").value} ${$("strange-port").value} ${$("strange-hex").value.replace(/\s/g, "")}`);
  });
  for (const it of document.querySelectorAll("[data-call]")) {
    it.addEventListener("click", () => ask(callWords(it.dataset.call)));
  }
  window.addEventListener("hashchange", readLink);
  window.addEventListener("resize", () => { if (result.made) refresh(); });
  document.addEventListener("keydown", onKey);
  $("premises").replaceChildren(...PREMISES.map((text) => item("li", text.replace(/^\(\d\) /, ""))));
}

function bytesOfBase64(text) {
  return Uint8Array.from(atob(text), (sign) => sign.charCodeAt(0));
}

async function start() {
  $("fault").hidden = true;
  try {
    module_ = await openModule(bytesOfBase64(MODULE));
  } catch (why) {
    $("fault").hidden = false;
    $("fault").textContent = `This browser can't run the page (${why.message}). ${$("fault").textContent}`;
    document.body.dataset.fault = "yes";
    return;
  }
  $("loaded").textContent = `${(MODULE_BYTES / 1024).toFixed(0)} KiB of WebAssembly`;
  makeStories();
  makeControls();
  if (!readLink()) take(STORIES.lost);
  document.body.dataset.ready = "yes";
}

start();
