// The stories: what is asked for, and what the network does with the datagrams c0, c1, .. of the client and s0, s1,
// .. of the server: each arrives after these milliseconds, or never. `file` names the script of each in examples/.

const STORIES = {
  lost: {
    name: "The lost acknowledgement",
    file: "lost-acknowledgement",
    lines: "0 set log x\n0 call post log a\n3000 call get log",
    fates: { s0: [] },
    say: "A POST appends. Its acknowledgement is lost, so the request comes twice. The server answers the copy with " +
      "the same bytes, and appends once.",
  },
  late: {
    name: "The late duplicate",
    file: "late-duplicate",
    lines: "0 set light off\n0 call put light on\n9000 call put light off\n70000 call get light",
    fates: { c0: [40, 50000] },
    say: "The network keeps a copy of “on” for 50 seconds. By then the light was switched off, and off it stays.",
  },
  blocks: {
    name: "A block that is doubled",
    file: "doubled-block",
    lines: "0 call put file {2500}\n1000 call get file",
    fates: { c1: [40, 90], s1: [40, 400] },
    say: "2,500 bytes go up in blocks of 1,024, and come down so. The second block and its answer come twice. The " +
      "server never holds a part of the body, nor one block twice.",
  },
  overtaken: {
    name: "A notification that overtakes",
    file: "overtaking-notification",
    plains: "temperature",
    lines: "0 set temperature 21 C\n0 observe temperature\n500 set temperature 22 C\n900 set temperature 23 C\n" +
      "4000 set temperature 24 C",
    fates: { s1: [1500], s2: [40] },
    say: "Nobody acknowledges these notifications. The second value is overtaken by the third: it comes late, and is " +
      "not reported.",
  },
  stranger: {
    name: "A stranger's Reset",
    file: "strangers-reset",
    lines: "0 set t 21 C\n0 observe t\n500 set t 22 C\n510 stranger server 9 70000000\n2000 set t 23 C",
    fates: {},
    say: "A stranger sends a Reset with the Message ID of the notification. It comes from another address, so the " +
      "server goes on notifying its observer.",
  },
  writers: {
    name: "Two writers and one winner",
    file: "two-writers",
    lines: "0 set lock free\n1000 stranger server 9 40030001180000000000000001a46c6f636bff61\n" +
      "1010 stranger server 10 40030001180000000000000001a46c6f636bff62\n2000 call get lock",
    fates: {},
    say: "Two strangers write “a” and “b”, each on condition that the lock has version 1. The first makes version 2, " +
      "so the second is refused: 4.12. The page has one client; of the writers it has the bytes alone.",
  },
  old: {
    name: "An old value, and its age",
    file: "old-value",
    plains: "temperature",
    lines: "0 set temperature 21 C\n0 observe temperature\n1000 set temperature 22 C\n1100 set temperature 23 C\n" +
      "90000 call get temperature",
    fates: { s1: [90000], s2: [] },
    say: "The second value is 90 seconds late, and the third is lost. A GET reads the third before the second comes. " +
      "Beside each report stands its age: how long ago the server last held that. It is at most 247 seconds.",
  },
  get: {
    name: "A GET",
    file: "get",
    lines: "0 set t hi\n0 call get t",
    fates: { c0: [5], s0: [4] },
    say: "A request and its answer. Lose either: two seconds later a copy goes out.",
  },
  observe: {
    name: "An observation",
    file: "late-value",
    lines: "0 set temperature 21 C\n0 observe temperature\n500 set temperature 22 C\n900 set temperature 23 C\n" +
      "4000 set temperature 24 C",
    fates: { s1: [5200] },
    say: "Each change has a colour. The client's line takes the colour of the newest value that it reported, and " +
      "never goes back.",
  },
  gone: {
    name: "Nobody answers",
    file: "nobody-answers",
    lines: "0 call put light on\n1000 call get light",
    fates: { c0: [], c1: [], c2: [], c3: [], c4: [] },
    say: "Four copies, each after twice the time, then a timeout. The client doesn't say failed, since it can't " +
      "know. Let one of them arrive late.",
  },
  stale: {
    name: "A stale block",
    file: "stale-block",
    latency: 1,
    lines: "0 call put t {1024a}A\n62003 call put t {1024b}B",
    fates: { c1: [], c2: [], c3: [], c4: [], c5: [99998] },
    say: "The last block of a failed upload is 100 seconds late. The next upload waits for that long. Else the two " +
      "would be joined into a body that nobody sent.",
  },
};
