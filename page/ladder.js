// The picture of a run: a line for each end, and each datagram as an arrow from one to the other.

const SVG = "http://www.w3.org/2000/svg";
const COLORS = 8;
const WIDE = { width: 1120, time: 58, client: 340, server: 800, beside: true, mostNote: 42, mostLabel: 62 };
const NARROW = { width: 440, time: 34, client: 44, server: 396, beside: false, mostNote: 34, mostLabel: 40 };
// With the lines of strangers, notes stand between the two ends.
const CROWDED = {
  width: 1120, time: 58, client: 110, server: 560, columns: [810, 1050], beside: false, mostNote: 42, mostLabel: 62,
  mostStrange: 38,
};

// The colour of a version (colors.css).
const colorOf = (version) => `var(--v${((version - 1) % COLORS) + 1})`;

function el(name, attributes, ...children) {
  const it = document.createElementNS(SVG, name);
  for (const [key, value] of Object.entries(attributes || {})) it.setAttribute(key, value);
  it.append(...children);
  return it;
}

// ---- Words ----

function bodyWords(hex, most = 20) {
  if (!hex || hex === "-") return "empty";
  const bytes = bytesOfHex(hex);
  const isText = [...bytes].every((byte) => byte >= 32 && byte < 127);
  if (!isText) return `${bytes.length} B`;
  const text = String.fromCharCode(...bytes);
  return text.length <= most ? `“${text}”` : `“${text.slice(0, 3)}…${text.slice(-1)}”, ${bytes.length} B`;
}

// CON 0.01 0000 [..] GET t, Observe 0: without the code's number and the token.
function shortWords(words) {
  const found = /^(\w+) (\S+) (\w+) \[\w*\] ?(.*)$/.exec(words);
  if (!found) return words;
  const rest = found[4]
    .replace(/(ETag|If-Match) 0*([0-9a-f]+)/g, (_, name, tag) => `${name === "ETag" ? "" : "if "}v${parseInt(tag, 16)}`)
    .replace(/, Content-Format 0/, "");
  return `${found[1]} ${found[3]} ${rest}`;
}

function versionIn(words) {
  const found = /ETag 0*([0-9a-f]{1,12})/.exec(words);
  return found ? parseInt(found[1], 16) : null;
}

const cut = (text, most) => (text.length > most ? `${text.slice(0, most - 1)}…` : text);

// What is asked of the client.
function askedWords(it, words) {
  if (words[0] === "observe") return `${it.call}: observe ${words[1] || "/"}`;
  const body = words.length > 3 ? ` ${bodyWords(hexOf(words.slice(3).join(" ")), 16)}` : "";
  return `${it.call}: ${(words[1] || "").toUpperCase()} ${words[2] || "/"}${body}`;
}

// Who changed a path.
function changerWords(applied) {
  if (!applied) return "set: ";
  return applied.isCall ? `${applied.method} of ${applied.call}: ` : `${applied.method} of a stranger: `;
}

// A report, with its age where the path no longer holds it.
function reportWords(it) {
  const isValue = it.hex !== undefined;
  const text = isValue ? `v${it.version} ${bodyWords(it.hex, 14)}` : [it.what, ...it.rest].join(" ");
  return `${it.call}: ${text}${it.age ? `, ${ageWords(it.age)}` : ""}`;
}

const FAILURES = /^(timeout|failed|reset|no-|bad-|too-|changed)/;

// The note of a thing that happens at an end: { side, text, color, strong }; none for what has no note.
function noteOf(it, turn, applied) {
  const words = turn.event.action?.what.split(" ") || [];
  const isLocal = words[0] === "set" || words[0] === "remove";
  switch (it.kind) {
    case "takes": return { side: "client", text: askedWords(it, words) };
    case "cancels": return { side: "client", text: `cancel ${words[1]}` };
    case "forgets": return { side: "client", text: `forget ${words[1]}` };
    case "refused":
      return { side: isLocal ? "server" : "client", text: `refused: ${it.number}`, color: "var(--bad)" };
    case "removes": return it.number === 0 ? { side: "server", text: "nothing to remove" } : null;
    case "holds": {
      const text = `${changerWords(applied)}v${it.version} ${it.path} = ${bodyWords(it.hex, 14)}`;
      return { side: "server", text, color: colorOf(it.version), strong: true };
    }
    case "gone": {
      const text = `${changerWords(applied)}v${it.version} ${it.path} is gone`;
      return { side: "server", text, color: colorOf(it.version), strong: true };
    }
    case "report": {
      const color = it.version ? colorOf(it.version) : FAILURES.test(it.what) ? "var(--bad)" : "var(--good)";
      return { side: "client", text: reportWords(it), color, strong: true };
    }
    case "stranger": {
      const text = `stranger at ${it.from.split(":")[1]}: ${shortWords(it.words)}`;
      return { side: it.end, text, color: "var(--soft)" };
    }
    case "memory": return { side: "server", text: "no memory: counts as lost", color: "var(--bad)" };
    default: return null;
  }
}

// ---- Where everything stands: rows in the order of the run, further apart where more time goes by ----

function layOut(turns, latency) {
  const layout = { y: 74, moment: null, moments: [], notes: [], held: [], known: [], sent: new Map(), latency };
  Object.assign(layout, { strange: [], strangers: strangersIn(turns) });
  for (const turn of turns) layTurn(layout, turn);
  return { ...layout, sent: [...layout.sent.values()], height: layout.y + 60 };
}

function layTurn(layout, turn) {
  if (!turn.things.length && turn.event.delivers === undefined && !turn.event.action) return;
  if (layout.moment === null || turn.at !== layout.moment) {
    if (layout.moment !== null) layout.y += 8 + 11 * Math.log10(1 + turn.at - layout.moment);
    layout.moment = turn.at;
    layout.moments.push({ y: layout.y, at: turn.at });
  }
  if (turn.event.delivers !== undefined) layArrival(layout, turn);
  let applied = null;
  for (const it of turn.things) {
    if (it.kind === "applied") {
      applied = it;
      continue;
    }
    if (it.kind === "out") {
      layout.y += 22;
      layout.sent.set(it.n, { out: it, y: layout.y, at: turn.at, arrivals: [] });
      layout.y += 4;
      continue;
    }
    if (it.kind === "stranger") layStranger(layout, it, noteOf(it, turn));
    else layNote(layout, noteOf(it, turn, applied));
    if (it.kind === "holds" || it.kind === "gone") applied = null;
    if (it.kind === "holds") layout.held.push({ y: layout.y, version: it.version, lane: it.path });
    if (it.kind === "gone") layout.held.push({ y: layout.y, lane: it.path });
    if (it.kind === "report" && it.version) layout.known.push({ y: layout.y, version: it.version, lane: it.call });
  }
  if (applied) {
    const text = `${applied.method}${applied.isCall ? ` of ${applied.call}` : ""}: changes nothing`;
    layNote(layout, { side: "server", text, color: "var(--soft)" });
  }
}

function layNote(layout, note) {
  if (!note) return;
  layout.y += 18;
  layout.notes.push({ ...note, y: layout.y });
  layout.y += 5;
}

function layArrival(layout, turn) {
  const sent = layout.sent.get(turn.event.delivers);
  if (!sent) return;
  const { delay } = turn.event;
  const index = sent.arrivals.length;
  const isPlain = delay === layout.latency && index === 0;
  const isLate = [...layout.sent.values()].some(
    (it) => it.out.end === sent.out.end && it.out.n > sent.out.n && it.arrivals.length);
  layout.y += isPlain ? 6 : 10;
  const how = index ? "again, " : isLate ? "late, " : "";
  const say = isPlain ? "" : `${sent.out.n} ${how}after ${msWords(delay)}`;
  sent.arrivals.push({ y: layout.y, at: turn.at, index, delay, say });
  layout.y += isPlain ? 6 : 16;
}

// The moment at a height of the picture.
function momentAt(layout, y) {
  const { moments } = layout;
  if (!moments.length || y <= moments[0].y) return moments.length ? moments[0].at : 0;
  for (let i = 1; i < moments.length; i += 1) {
    const [above, below] = [moments[i - 1], moments[i]];
    if (y < below.y) return above.at + ((y - above.y) / (below.y - above.y)) * (below.at - above.at);
  }
  const last = moments[moments.length - 1];
  return last.at + (Math.exp((y - last.y) / 30) - 1) * 60;
}

// ---- Drawing ----

// Draws the run. `does` says what is done with a datagram: { fateOf, isChosen, choose, lose, once, twice, drag }.
function drawLadder(svg, layout, place, does) {
  svg.replaceChildren();
  svg.setAttribute("viewBox", `0 0 ${place.width} ${layout.height}`);
  const end = layout.height - 30;
  for (const moment of layout.moments) {
    const words = moment.at < 1000 ? `${moment.at}` : `${moment.at / 1000} s`;
    svg.append(el("line", { class: "guide", x1: place.time + 4, x2: place.width - 8, y1: moment.y, y2: moment.y }));
    svg.append(el("text", { class: "time", x: place.time, y: moment.y + 4, "text-anchor": "end" }, words));
  }
  drawEnd(svg, place.client, "client", ENDS.client, layout.known, end);
  drawEnd(svg, place.server, "server", ENDS.server, layout.held, end);
  const labels = el("g", { class: "labels" });
  drawStrangers(svg, labels, layout, place, end);
  for (const sent of layout.sent) {
    drawDatagram(svg, labels, sent, { ...place, to: columnOf(layout, place, sent.out.to) }, does);
  }
  svg.append(labels);
  for (const note of layout.notes) drawNote(svg, note, place);
}

function drawEnd(svg, x, name, address, versions, end) {
  svg.append(el("text", { class: "head", x, y: 22, "text-anchor": "middle" }, name));
  svg.append(el("text", { class: "sub", x, y: 38, "text-anchor": "middle" }, address));
  svg.append(el("line", { class: "life", x1: x, x2: x, y1: 52, y2: end }));
  const lanes = [...new Set(versions.map((it) => it.lane))].slice(0, 3);
  for (const [i, lane] of lanes.entries()) {
    const of = versions.filter((it) => it.lane === lane);
    const dx = (i - (lanes.length - 1) / 2) * 4;
    for (const [n, it] of of.entries()) {
      if (!it.version) continue;
      const y2 = of[n + 1] ? of[n + 1].y : end;
      const line = { x1: x + dx, x2: x + dx, y1: it.y, y2, stroke: colorOf(it.version), "stroke-width": 4 };
      svg.append(el("line", { class: "version", ...line }));
    }
  }
}

// Beside the line of its end, or between the lines where there is no room.
function drawNote(svg, note, place) {
  const isClient = note.side === "client";
  const gap = place.beside ? 22 : -14;
  const x = isClient ? place.client - gap : place.server + gap;
  const anchor = isClient === place.beside ? "end" : "start";
  const text = el("text", { class: "note", x, y: note.y, "text-anchor": anchor }, cut(note.text, place.mostNote));
  if (note.strong) text.setAttribute("font-weight", "600");
  svg.append(text);
  const width = text.getComputedTextLength() + 14;
  const box = {
    x: anchor === "end" ? x - width + 7 : x - 7, y: note.y - 14, width, height: 20, rx: 5,
    fill: note.color || "var(--line)", "fill-opacity": note.color ? 0.16 : 0.4,
    stroke: note.color || "none", "stroke-opacity": 0.7,
  };
  svg.insertBefore(el("rect", { class: "box", ...box }), text);
}

function datagramColor(out) {
  const version = versionIn(out.words);
  if (version) return colorOf(version);
  if (/^RST/.test(out.words)) return "var(--bad)";
  return out.first !== out.n ? "var(--soft)" : "var(--ink)";
}

// What a screen reader says of a datagram.
function datagramWords(sent, delays) {
  const { out } = sent;
  const copy = out.first === out.n ? "" : `, the bytes of ${out.first} again`;
  const fate = delays.length ? `arrives after ${delays.map(msWords).join(" and ")}` : "is lost";
  return `Datagram ${out.n} of the ${out.end} at ${msWords(sent.at)}${copy}: ${shortWords(out.words)}; it ${fate}`;
}

function drawDatagram(svg, labels, sent, place, does) {
  const { out } = sent;
  const isRight = out.end === "client";
  const color = datagramColor(out);
  const ends = isRight ? [place.client + 6, place.server - 6] : [place.server - 6, place.client + 6];
  const between = isBetween(out);
  const delays = between ? does.fateOf(out) : [];
  const g = el("g", { class: `gram${does.isChosen(out.key) ? " chosen" : ""}`, "data-key": out.key });
  if (between) {
    const label = datagramWords(sent, delays);
    for (const [name, value] of Object.entries({ tabindex: 0, role: "button", "aria-label": label })) {
      g.setAttribute(name, value);
    }
    g.addEventListener("focus", () => does.choose(out.key));
  }
  for (const arrival of sent.arrivals) drawArrow(g, labels, sent, arrival, ends, color, isRight);
  const comes = delays.length > 0;
  if (sent.arrivals.length === 0) drawStub(g, labels, sent, ends, color, { isRight, between, comes, to: place.to });
  drawLabel(labels, sent, ends[0], isRight, place, does);
  if (between) {
    drawTools(g, sent, ends[1], isRight, does);
    for (const arrival of sent.arrivals) drawKnob(g, sent, arrival, ends, does);
  }
  g.addEventListener("click", () => does.choose(out.key));
  svg.append(g);
}

// What a datagram says, above the end that it leaves, and to whom, where it goes to neither end.
function drawLabel(labels, { out, y }, from, isRight, place, does) {
  const copy = out.first === out.n ? "" : `= ${out.first} again  `;
  const elsewhere = isBetween(out) || place.to ? "" : `, to port ${out.to.split(":")[1]}`;
  const words = cut(`${out.n}  ${copy}${shortWords(out.words)}${elsewhere}`, place.mostLabel);
  const kind = `label${copy ? " again" : ""}${does.isChosen(out.key) ? " chosen" : ""}`;
  const toRight = isRight || place.to;
  const x = place.to ? place[out.end] + 16 : from + (isRight ? 10 : -10);
  const at = { x, y: y - 5, "text-anchor": toRight ? "start" : "end" };
  labels.append(el("text", { class: kind, "data-key": out.key, ...at }, words));
}

// A shaft and a head.
function arrow({ x1, y1, x2, y2 }, color) {
  const angle = Math.atan2(y2 - y1, x2 - x1);
  const corner = (d) => `${x2 - 9 * Math.cos(angle + d)},${y2 - 9 * Math.sin(angle + d)}`;
  const head = el("polygon", { points: `${x2},${y2} ${corner(0.4)} ${corner(-0.4)}`, fill: color });
  return [el("line", { class: "shaft", x1, y1, x2, y2, stroke: color }), head];
}

function drawArrow(g, labels, sent, arrival, [x1, x2], color, isRight) {
  const line = { x1, y1: sent.y, x2, y2: arrival.y };
  const [shaft, head] = arrow(line, color);
  if (arrival.index > 0) shaft.setAttribute("stroke-dasharray", "6 4");
  g.append(el("line", { class: "hit", ...line }), shaft, head);
  if (!arrival.say) return;
  const at = { x: isRight ? x2 - 14 : x2 + 14, y: arrival.y + 12, "text-anchor": isRight ? "end" : "start" };
  labels.append(el("text", { class: "way", ...at }, arrival.say));
}

// A datagram that does not arrive here: it is lost, it is on its way, or it goes elsewhere.
function drawStub(g, labels, sent, [x1, x2], color, { isRight, between, comes, to: column }) {
  if (column) {
    const line = { x1: isRight ? x1 : x1 + 12, y1: sent.y, x2: column - 6, y2: sent.y + 6 };
    g.append(el("line", { class: "hit", ...line }), ...arrow(line, color));
    return;
  }
  const to = between ? x1 + (x2 - x1) * 0.5 : x1 + (isRight ? -46 : 46);
  const y2 = between ? sent.y + 12 : sent.y;
  const line = { x1, y1: sent.y, x2: to, y2 };
  g.append(el("line", { class: "hit", ...line }));
  g.append(el("line", { class: "shaft", ...line, stroke: color, "stroke-dasharray": "2 4" }));
  if (!between) return;
  if (!comes) g.append(el("path", { class: "cross", d: `M${to - 6},${y2 - 6} l12,12 m0,-12 l-12,12` }));
  const at = { x: to + (isRight ? 14 : -14), y: y2 + 4, "text-anchor": isRight ? "start" : "end" };
  labels.append(el("text", { class: "way", ...at }, comes ? "on its way" : "lost"));
}

function drawTools(g, sent, x, isRight, does) {
  const tools = [
    ["✕", "lose it", does.lose], ["1", "it arrives once", does.once], ["2", "it arrives twice", does.twice],
  ];
  for (const [i, [sign, title, act]] of tools.entries()) {
    const left = isRight ? x - 26 - (tools.length - 1 - i) * 24 : x + 4 + i * 24;
    const tool = el("g", { class: "tool", transform: `translate(${left},${sent.y - 20})` });
    const box = el("rect", { width: 22, height: 19, rx: 4 });
    tool.append(el("title", {}, title), box, el("text", { x: 11, y: 14 }, sign));
    tool.addEventListener("click", (event) => {
      event.stopPropagation();
      act(sent.out);
    });
    g.append(tool);
  }
}

function drawKnob(g, sent, arrival, ends, does) {
  const knob = el("circle", { class: "knob", cx: ends[1], cy: arrival.y, r: 8 });
  knob.append(el("title", {}, "drag it down: it arrives later"));
  knob.addEventListener("pointerdown", (event) => does.drag(event, sent, arrival, ends));
  // A finger on it drags, and does not scroll.
  knob.addEventListener("touchstart", (event) => event.preventDefault(), { passive: false });
  g.append(knob);
}
