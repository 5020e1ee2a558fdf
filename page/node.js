// Runs scripts by the module, without a browser: node node.js MODULE.wasm EXAMPLES COUNT SEED
//
// Prints a line of JSON for each: { name, script, plains, lines, chart }, where the last two are { status, text }.
// First come the stories and the scripts of the folder, and then random networks and random edits of these.
"use strict";
const fs = require("fs");
const path = require("path");
const vm = require("vm");

const FILES = ["module", "record", "facts", "promises", "premises", "stories", "network", "drag"];
const USED = "{ openModule, actionsOf, simulate, runScript, markAges, promisesIn, brokenIn, STORIES, clamp }";
const SOURCES = FILES.map((it) => fs.readFileSync(path.join(__dirname, `${it}.js`), "utf8"));
vm.runInThisContext(`const PREMISES = [];\n${SOURCES.join("\n")}\nObject.assign(globalThis, ${USED});`);

// Random numbers of a seed (xorshift), so that a failure comes again.
function randomOf(seed) {
  let x = seed | 1;
  return (below) => {
    x ^= x << 13;
    x ^= x >>> 17;
    x ^= x << 5;
    return (x >>> 0) % below;
  };
}

const pick = (random, list) => list[random(list.length)];

const PATHS = ["t", "log", "a/b", "light", "%C3%A9", "/"];
const BODIES = ["x", "hello", "{1024a}", "{2500}", "", "22.5 C"];
const STRANGE = ["40000001", "4001ABCDB174", "70000000", "480400010000000000000000b174", "ff", ""];

function randomLine(random) {
  const where = pick(random, PATHS);
  const words = [
    `call get ${where}`, `call put ${where} ${pick(random, BODIES)}`, `call post ${where} ${pick(random, BODIES)}`,
    `call delete ${where}`, `observe ${where}`, `set ${where} ${pick(random, BODIES)}`, `set ${where} ${random(1000)}`,
    `remove ${where}`, `cancel ${random(4)}`, `forget ${random(4)}`,
    `stranger ${pick(random, ["client", "server"])} ${random(65536)} ${pick(random, STRANGE)}`,
  ];
  return `${random(20) * 500} ${pick(random, words)}`;
}

function randomFate(random) {
  const late = () => (random(10) < 3 ? clamp(10 ** (1 + random(400) / 100), 1, 100000) : 20 + random(60));
  const dice = random(10);
  return dice < 3 ? [] : dice < 5 ? [late(), late()] : [late()];
}

// A run over a random network, planned as the page does; nothing where a line is refused.
function randomNetwork(module, random) {
  const lines = Array.from({ length: 1 + random(8) }, () => randomLine(random)).join("\n");
  const plains = random(3) === 0 ? pick(random, ["t", "t\nlog", "a/b"]) : "";
  const fates = {};
  const delaysOf = (out) => (fates[out.key] ??= randomFate(random));
  const ran = simulate(module, actionsOf(lines), delaysOf, plains);
  return ran.run ? { ...ran, plains } : null;
}

// A script of random events in which those that are not legal are left out.
function randomScript(module, random) {
  let at = 0;
  const lines = [];
  for (let i = 4 + random(30); i > 0; i -= 1) {
    at += pick(random, [0, 1, 40, 500, 2000, 2000, 60000]);
    const words = pick(random, [
      "tick client", "tick client", "tick server", `deliver ${random(12)}`, `deliver ${random(12)}`,
      randomLine(random).replace(/^\d+ /, ""),
    ]);
    lines.push(actionsOf(`${at} ${words}`)[0].text);
  }
  const plains = random(3) === 0 ? pick(random, ["t", "t\nlog", "a/b"]) : "";
  for (;;) {
    const script = lines.map((it) => `${it}\n`).join("");
    const found = /not legal (\d+)/.exec(module.all(script, plains).text);
    if (!found) return { ...runScript(module, script, plains), plains };
    lines.splice(Number(found[1]), 1);
  }
}

// A script with one edit, so that bad lines and illegal events come, too.
function edited(random, script) {
  const lines = script.replace(/\n$/, "").split("\n");
  const at = random(lines.length);
  const edits = [
    () => lines.splice(at, 1), () => lines.splice(at, 0, "0 nothing"), () => { lines[at] = ""; },
    () => { lines[at] = lines[at].replace(/\d/, "9"); }, () => lines.splice(at, 0, `0 deliver ${random(9)}`),
    () => { lines[at] += " "; }, () => lines.splice(at, 0, lines[random(lines.length)]),
  ];
  pick(random, edits)();
  return `${lines.join("\n")}\n`;
}

function tell(module, name, script, plains) {
  const [lines, chart] = [module.lines(script, plains), module.chart(script, plains)];
  console.log(JSON.stringify({ name, script, plains, lines, chart }));
}

async function main([wasm, examples, count, seed]) {
  const module = await openModule(fs.readFileSync(wasm));
  for (const [name, story] of Object.entries(STORIES)) {
    const plains = story.plains || "";
    const delaysOf = (out) => story.fates[out.key] || [story.latency || 40];
    tell(module, `story ${name}`, simulate(module, actionsOf(story.lines), delaysOf, plains).script, plains);
  }
  for (const file of fs.readdirSync(examples).filter((it) => it.endsWith(".sim")).sort()) {
    const words = path.join(examples, file.replace(/sim$/, "words"));
    const said = fs.existsSync(words) ? fs.readFileSync(words, "utf8").trim().split(/\s+/) : [];
    const plains = said.filter((_, i) => i % 2 === 1);
    tell(module, file, fs.readFileSync(path.join(examples, file), "latin1"), plains.join("\n"));
  }
  const random = randomOf(Number(seed));
  for (let i = 0; i < Number(count);) {
    const ran = i % 20 === 0 ? randomNetwork(module, random) : randomScript(module, random);
    if (!ran) continue;
    const broken = brokenIn(promisesIn(ran.run.turns, ran.list.length));
    if (broken.length) throw new Error(`${broken[0].name} is broken: ${ran.script}`);
    markAges(ran.run.turns);
    tell(module, `random ${i}`, i % 4 === 3 ? edited(random, ran.script) : ran.script, ran.plains);
    i += 1;
  }
}

main(process.argv.slice(2));
