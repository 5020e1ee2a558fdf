// Strangers in the picture: where there is room, each of the first ones has a line beside the server's.

const MOST_STRANGERS = 2;

// The addresses of strangers, in the order in which they first send.
function strangersIn(turns) {
  const things = turns.flatMap((turn) => turn.things.filter((it) => it.kind === "stranger"));
  return [...new Set(things.map((it) => it.from))].slice(0, MOST_STRANGERS);
}

// Where the line of an address stands; nothing where it has none.
function columnOf(layout, place, address) {
  return place.columns?.[layout.strangers.indexOf(address)];
}

// A stranger's datagram, in a row of its own; as a note where strangers have no lines.
function layStranger(layout, thing, note) {
  layout.y += 22;
  layout.strange.push({ thing, note, y: layout.y });
  layout.y += 8;
}

function drawStrangers(svg, labels, layout, place, end) {
  for (const address of layout.strangers) {
    const x = columnOf(layout, place, address);
    if (x) drawEnd(svg, x, "stranger", address, [], end);
  }
  for (const { thing, note, y } of layout.strange) {
    const from = columnOf(layout, place, thing.from);
    if (!from) {
      drawNote(svg, { ...note, y }, place);
      continue;
    }
    const to = place[thing.end] + 6;
    svg.append(el("g", { class: "strange" }, ...arrow({ x1: from - 6, y1: y - 6, x2: to, y2: y }, "var(--soft)")));
    const at = { x: from - 16, y: y - 9, "text-anchor": "end" };
    labels.append(el("text", { class: "label", ...at }, cut(shortWords(thing.words), place.mostStrange)));
  }
}
