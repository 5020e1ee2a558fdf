// Dragging the head of an arrow, with a mouse or a finger. The picture is drawn anew once it is let go.

function dragHead(svg, layout, event, sent, arrival, [x1, x2], most, done) {
  event.preventDefault();
  event.stopPropagation();
  const ghost = el("line", { class: "ghost", x1, y1: sent.y, x2, y2: arrival.y });
  const say = el("text", { class: "label", x: (x1 + x2) / 2, y: arrival.y, "text-anchor": "middle" });
  svg.append(ghost, say);
  let delay = arrival.delay;
  const move = (moved) => {
    const point = new DOMPoint(moved.clientX, moved.clientY).matrixTransform(svg.getScreenCTM().inverse());
    const y = Math.max(point.y, sent.y + 2);
    delay = clamp(momentAt(layout, y) - sent.at, 1, most);
    ghost.setAttribute("y2", y);
    say.setAttribute("y", Math.max(y - 8, sent.y + 14));
    say.textContent = `arrives after ${msWords(delay)}`;
  };
  const stop = (ended) => {
    window.removeEventListener("pointermove", move);
    window.removeEventListener("pointerup", stop);
    window.removeEventListener("pointercancel", stop);
    ghost.remove();
    say.remove();
    if (ended.type === "pointerup" && delay !== arrival.delay) done(delay);
  };
  window.addEventListener("pointermove", move);
  window.addEventListener("pointerup", stop);
  window.addEventListener("pointercancel", stop);
}

const clamp = (n, low, high) => Math.min(high, Math.max(low, Math.round(n)));
