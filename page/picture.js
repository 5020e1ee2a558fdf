// The ladder as a file of its own: its colours follow the reader's, and it has nothing to click.

function ladderFile() {
  const svg = $("ladder").cloneNode(true);
  for (const it of svg.querySelectorAll(".knob, .tool, .hit, title")) it.remove();
  for (const it of svg.querySelectorAll(".gram")) {
    for (const name of ["tabindex", "role", "aria-label", "data-key"]) it.removeAttribute(name);
  }
  svg.removeAttribute("tabindex");
  svg.setAttribute("xmlns", SVG);
  svg.setAttribute("role", "img");
  const style = document.createElementNS(SVG, "style");
  style.textContent = `\n${$("colors").textContent.trim()}\n${$("ladder-style").textContent.trim()}\n`;
  const back = el("rect", { width: "100%", height: "100%", fill: "var(--card)" });
  svg.prepend(style, back);
  const [, , width, height] = svg.getAttribute("viewBox").split(" ").map(Number);
  svg.setAttribute("width", width);
  svg.setAttribute("height", Math.round(height));
  svg.setAttribute("viewBox", `0 0 ${width} ${Math.round(height)}`);
  for (const it of svg.querySelectorAll("*")) roundNumbers(it);
  return `${new XMLSerializer().serializeToString(svg).replace(/></g, ">\n<")}\n`;
}

// A tenth of a unit is fine enough.
function roundNumbers(it) {
  for (const { name, value } of [...it.attributes]) {
    if (/\.\d\d/.test(value)) it.setAttribute(name, value.replace(/(\.\d)\d+/g, "$1"));
  }
}
