// Why an event of a script is not legal, in the words of README. Each answer is { premise, say }: the premise as README
// has it, or nothing where no network and no program does that.

const MAX_LATENCY_MS = 100_000;
const LATE = "within 100 s";
const CLOCKS = "pace";
const ADDRESSES = "forges";

// The premise that has these words (page/assemble.py sees that one does).
const premiseOf = (words) => PREMISES.find((it) => it.includes(words));

function whyNotLegal(lines, index, outs) {
  const words = lines[index].split(" ");
  const at = Number(words[0]);
  const before = index > 0 ? Number(lines[index - 1].split(" ")[0]) : 0;
  if (at < before) {
    return { premise: premiseOf(CLOCKS), say: `the clock shows ${at} ms after it showed ${before} ms` };
  }
  if (words[1] === "stranger") {
    return { premise: premiseOf(ADDRESSES), say: `port ${words[3]} of 127.0.0.1 is the address of an end` };
  }
  const out = outs.find((it) => it.n === Number(words[2]));
  if (!out) return { say: `datagram ${words[2]} was not given out before it` };
  if (at - out.at > MAX_LATENCY_MS) {
    const say = `datagram ${out.n} would come ${at - out.at} ms after it was given out`;
    return { premise: premiseOf(LATE), say, key: out.key };
  }
  return { say: `datagram ${out.n} is addressed to ${out.to}, which is no end` };
}
