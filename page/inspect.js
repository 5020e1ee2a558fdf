// The datagram that is chosen: what it says, and what the network does with it.

function choose(key) {
  state.chosen = key;
  for (const it of document.querySelectorAll("#ladder [data-key]")) {
    it.classList.toggle("chosen", it.dataset.key === key);
  }
  inspect();
}

const chosen = () => result.run?.outs.find((it) => it.key === state.chosen);

// Where the datagram is not sent any more, the picture has the focus.
function focusChosen() {
  const it = document.querySelector(`#ladder .gram[data-key="${state.chosen}"]`) || $("ladder");
  it.focus({ preventScroll: true });
}

function datagramSay(key) {
  const out = result.run?.outs.find((it) => it.key === key);
  if ($("refusal").textContent) return $("refusal").textContent;
  const broken = brokenIn(promisesIn(result.made.turns)).map((it) => it.name);
  const lamps = broken.length ? `Broken: ${broken.join(", ")}.` : "No promise is broken.";
  return `${out ? datagramWords({ out, at: out.at }, fateOf(out)) : "It is no longer sent"}. ${lamps}`;
}

function say(text) {
  $("told").textContent = text;
}

function button(text, act) {
  const it = item("button", text);
  it.addEventListener("click", act);
  return it;
}

function inspect() {
  const out = chosen();
  $("datagram").classList.toggle("open", Boolean(out));
  if (!out) {
    $("inspect").replaceChildren(item("p", "Choose a datagram: lose it, double it, or make it late.", "soft"));
    return;
  }
  const copy = out.first === out.n ? "" : `, the bytes of ${out.first} again`;
  const parts = [
    item("p", `Datagram ${out.n} of the ${out.end}, at ${msWords(out.at)}${copy}`),
    item("p", out.words, "mono"),
    item("p", cut(out.hex, 160), "mono soft"),
  ];
  if (isBetween(out)) parts.push(...fateRows(out));
  $("inspect").replaceChildren(...parts);
}

// From the picture to the controls of the datagram, and back.
function enterDatagram() {
  $("inspect").querySelector("button")?.focus();
}

function leaveDatagram() {
  const isInside = $("datagram").contains(document.activeElement);
  if (isInside) focusChosen();
  else choose(null);
}

function fateRows(out) {
  const delays = fateOf(out);
  const rows = delays.map((delay, i) => arrivalRow(out, delays, delay, i));
  if (!delays.length) rows.push(item("p", "It never arrives.", "soft"));
  const bar = item("div", "", "bar");
  bar.append(button("lose it", () => does.lose(out)), button("once", () => does.once(out)));
  bar.append(button("twice", () => does.twice(out)), button("1 s later", () => later(out, 1000)));
  return [bar, ...rows];
}

function arrivalRow(out, delays, delay, i) {
  const row = item("div", "", "arrival");
  const words = item("span", msWords(delay));
  const slider = document.createElement("input");
  Object.assign(slider, { type: "range", min: 0, max: Math.log10(MOST_DELAY_MS), step: 0.01 });
  slider.value = Math.log10(delay);
  slider.setAttribute("aria-label", `datagram ${out.n} arrives after`);
  slider.setAttribute("aria-valuetext", msWords(delay));
  const chosenDelay = () => clamp(10 ** slider.value, LEAST_DELAY_MS, MOST_DELAY_MS);
  slider.addEventListener("input", () => {
    words.textContent = msWords(chosenDelay());
    slider.setAttribute("aria-valuetext", msWords(chosenDelay()));
  });
  slider.addEventListener("change", () => setFate(out, delays.map((it, n) => (n === i ? chosenDelay() : it))));
  const remove = button("✕", () => setFate(out, delays.filter((_, n) => n !== i)));
  remove.setAttribute("aria-label", "this arrival is lost");
  row.append(words, slider, remove);
  return row;
}
