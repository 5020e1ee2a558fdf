// The promises of README, in its order, looked at in the record of one run. This is a test of that run and no proof.
//
// A promise is { name, parts }, and a part { name, seen, broken, say }: `seen` is how often there was something to look
// at, `broken` how often it was wrong.

// By one clock: what a report shows was held at most EXCHANGE_LIFETIME before it.
const OLDEST_MS = 247_000;

// `is` says whether one of those seen is as it should be.
function part(name, seen, is, say) {
  const broken = seen.filter((it) => !is(it)).length;
  return { name, seen: seen.length, broken, say: say(seen.length) };
}

// "Every body that a client reports was on its server at some moment between the call and the report."
function wholeBodies({ reports }) {
  const seen = reports.filter((it) => it.hex !== undefined);
  const wasThere = ({ was, hex, asked, now }) => was && was.hex === hex && (was.until ?? now) >= asked.begun;
  return part("Whole bodies", seen, wasThere, (count) => `${count} reported, each held by the server since its call`);
}

// ".. and at most so long before the report."
function nothingOld({ reports }) {
  const seen = reports.filter((it) => it.age !== undefined);
  const oldest = Math.max(0, ...seen.map((it) => it.age));
  return part("Nothing old", seen, (it) => it.age <= OLDEST_MS, () => `the oldest is ${ageWords(oldest)}`);
}

// "What is asked after a report is never older than that report."
function neverBack({ reports }) {
  const shown = reports.filter((it) => it.version);
  const before = (it) => shown.filter((other) => other.asked.path === it.asked.path && other.now < it.asked.begun);
  const seen = shown.filter((it) => before(it).length);
  const isNew = (it) => before(it).every((other) => it.version >= other.version);
  return part("Never back", seen, isNew, (count) => `${count} asked after another report, none older than that`);
}

// "Each request body is applied whole .."
function appliedWhole({ applied, calls }) {
  const seen = applied.filter((it) => it.method === "PUT" || it.method === "POST");
  const isWhole = ({ call, method, before, made }) => {
    const body = calls.get(call)?.body;
    return made && hexIn(made.hex) === (method === "PUT" ? body : hexIn(before?.hex || "-") + body);
  };
  return part("Applied whole", seen, isWhole, (count) => `${count} with a body, each whole`);
}

const timesApplied = (applied, call) => applied.filter((it) => it.call === call).length;

// ".. at most once .."
function atMostOnce({ applied }) {
  const seen = [...new Set(applied.map((it) => it.call))];
  const isOnce = (call) => timesApplied(applied, call) === 1;
  return part("At most once", seen, isOnce, (count) => `${count} applied, none of them twice`);
}

// ".. exactly once where success is reported .."
function doneIsDone({ applied, reports }) {
  const seen = reports.filter((it) => it.what === "done");
  const isDone = ({ call, now }) => timesApplied(applied.filter((it) => it.now <= now), call) === 1;
  return part("Done is done", seen, isDone, (count) => `${count} reported done, each applied once before`);
}

// ".. never where an error code is."
function failedIsNot({ applied, reports }) {
  const seen = reports.filter((it) => it.what === "failed");
  const isNot = ({ call }) => timesApplied(applied, call) === 0;
  return part("Failed is not done", seen, isNot, (count) => `${count} reported failed, none of them applied`);
}

// "Of several conditional writes over one entity-tag, at most one is applied."
function oneWinner({ writes }) {
  const over = (write) => writes.filter((it) => it.path === write.path && it.tag === write.tag && it.isApplied);
  const say = (count) => `${count} conditional writes, at most one applied over each entity-tag`;
  return part("One winner", writes, (it) => over(it).length <= 1, say);
}

// "The values of one observation have rising versions."
function risingValues({ reports }) {
  const seen = reports.filter((it) => it.what === "value");
  const rises = (it) => seen.every((old) => old.call !== it.call || old.now >= it.now || old.version < it.version);
  return part("Rising values", seen, rises, (count) => `${count} values, each newer than the one before`);
}

// "No datagram, from anyone, stops an end."
function goesOn(turns, events) {
  const strange = turns.filter((turn) => turn.things.some((it) => it.kind === "stranger"));
  const came = turns.filter((turn) => turn.event?.delivers !== undefined).length + strange.length;
  const say = `${came} datagrams came, ${strange.length} of them from strangers, and both ends went on`;
  const lacks = events - turns.length;
  const fault = `nothing comes of the last ${lacks} events`;
  return { name: "Nothing stops an end", seen: came, broken: lacks, say, fault };
}

// Looks at the turns of so many events.
function promisesIn(turns, events = turns.length) {
  const facts = factsOf(turns);
  const look = (name, ...parts) => ({ name, parts });
  return [
    look("What is read was there", wholeBodies(facts), nothingOld(facts), neverBack(facts)),
    look("What is asked is done once", ...[appliedWhole, atMostOnce, doneIsDone, failedIsNot, oneWinner]
      .map((is) => is(facts))),
    look("Values rise", risingValues(facts)),
    look("Nothing stops an end", goesOn(turns, events)),
  ];
}

// The parts that are broken.
const brokenIn = (promises) => promises.flatMap((it) => it.parts).filter((it) => it.broken);
