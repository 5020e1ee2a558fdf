// What a broken stack would do: records that are made up of real ones, so that each lamp can be seen to turn red.
//
// `part` is the part of a promise that is broken. `breaks` changes the things of the record, each in its turn, or takes
// turns away.

const OFF_AND_ON = "0 set light off\n0 call put light on";
const READ_TWICE = "0 set t a\n1000 set t b\n2000 call get t\n3000 call get t";
const THREE_VALUES = "0 set t 21 C\n0 observe t\n500 set t 22 C\n900 set t 23 C";

const reportsIn = (turns, what) => thingsIn(turns).filter((it) => it.kind === "report" && it.what === what);
const appliedIn = (turns) => thingsIn(turns).find((it) => it.kind === "applied");
const thingsIn = (turns) => turns.flatMap((turn) => turn.things);

// The report shows again what this one shows.
function showAgain(report, { version, hex }) {
  Object.assign(report, { version, hex });
}

const BROKEN = [
  {
    part: "Whole bodies",
    say: "the client reports half of the body",
    lines: "0 set t hello\n0 call get t",
    breaks(turns) {
      const [report] = reportsIn(turns, "body");
      report.hex = report.hex.slice(0, report.hex.length / 2 + 1);
    },
  },
  {
    part: "Nothing old",
    say: "the client reports a value that was replaced five minutes before",
    lines: `${THREE_VALUES}\n300000 set t 24 C`,
    breaks(turns) {
      const [, old, newer, last] = reportsIn(turns, "value");
      showAgain(last, old);
      for (const turn of turns) turn.things = turn.things.filter((it) => it !== old && it !== newer);
    },
  },
  {
    part: "Never back",
    also: ["Whole bodies"],
    say: "the second GET reports an older body than the first one",
    lines: READ_TWICE,
    breaks(turns) {
      showAgain(reportsIn(turns, "body").at(-1), thingsIn(turns).find((it) => it.kind === "holds"));
    },
  },
  {
    part: "Applied whole",
    say: "the server keeps the first letter of the body alone",
    lines: OFF_AND_ON,
    breaks(turns) {
      const made = thingsIn(turns).findLast((it) => it.kind === "holds");
      made.hex = made.hex.slice(0, 2);
    },
  },
  {
    part: "At most once",
    say: "the server applies the copy of a request again",
    lines: OFF_AND_ON,
    fates: { c0: [40, 900] },
    breaks(turns) {
      const came = turns.findLast((turn) => turn.event.delivers === 0);
      const made = thingsIn(turns).findLast((it) => it.kind === "holds");
      came.things.push({ ...appliedIn(turns), version: made.version + 1 }, { ...made, version: made.version + 1 });
    },
  },
  {
    part: "Done is done",
    say: "the client reports done of a request that the server never applied",
    lines: OFF_AND_ON,
    breaks(turns) {
      for (const turn of turns) turn.things = turn.things.filter((it) => it.kind !== "applied" && it.version !== 2);
    },
  },
  {
    part: "Failed is not done",
    say: "the client reports an error of a request that the server has applied",
    lines: OFF_AND_ON,
    breaks(turns) {
      Object.assign(reportsIn(turns, "done")[0], { what: "failed", rest: ["5.00"] });
    },
  },
  {
    part: "One winner",
    say: "the server applies the second of two writes, though its condition no longer holds",
    lines: STORIES.writers.lines,
    breaks(turns) {
      const [first, second] = turns.filter((turn) => turn.things.some((it) => it.kind === "stranger"));
      const [applied, made] = ["applied", "holds"].map((kind) => first.things.find((it) => it.kind === kind));
      const again = { version: made.version + 1, hex: hexOf("b") };
      second.things.push({ ...applied, version: again.version }, { ...made, ...again });
      showAgain(reportsIn(turns, "body")[0], again);
    },
  },
  {
    part: "Rising values",
    say: "the client reports an older value after a newer one",
    lines: THREE_VALUES,
    breaks(turns) {
      const values = reportsIn(turns, "value");
      showAgain(values.at(-1), values[0]);
    },
  },
  {
    part: "Nothing stops an end",
    say: "the server stops at a stranger's datagram, and nothing happens after it",
    lines: `${THREE_VALUES}\n950 stranger server 9 70000000\n2000 set t 24 C`,
    breaks(turns) {
      turns.splice(turns.findIndex((turn) => turn.things.some((it) => it.kind === "stranger")) + 1);
    },
  },
];

const storyOf = ({ lines, fates }) => ({ lines, plains: "", latency: 40, fates: fates || {} });

// The run with what the broken stack would have done in it.
function breakRun(run, broken) {
  const turns = run.turns.map((turn) => ({ ...turn, things: turn.things.map((it) => ({ ...it })) }));
  broken.breaks(turns);
  return { ...run, turns };
}
