"""What page/check tries in a browser, by hand: the mouse, a finger, the keyboard."""

import json
import os
import pathlib
import random
import re
import subprocess
import sys
import tempfile
import time

HERE = pathlib.Path(__file__).resolve().parent
TOP = HERE.parent
EXAMPLES = TOP / "examples"
COAP = pathlib.Path(os.environ.get("COAP", TOP / "crates" / "coap" / "out" / "coap"))
SECONDS = int(os.environ.get("CLICK_SECONDS", "60"))
SEED = int(os.environ.get("SEED", "1"))
# A run that is played has gone on so many seconds later.
PLAYS_WITHIN_S = 10
PHONE = (390, 844)
DESK = (1500, 1300)
# What can be touched is at least so high, in CSS pixels (WCAG 2.2, 2.5.8).
LEAST_TARGET = 24
# Of a text to its ground, and of what is drawn (WCAG 2.2, 1.4.3 and 1.4.11).
LEAST_CONTRAST, LEAST_DRAWN = 4.5, 3.0
COLOUR = "getComputedStyle(document.documentElement).getPropertyValue('--%s').trim()"


class Failed(Exception):
    """Something is not as it should be."""


def want(holds, why):
    if not holds:
        raise Failed(why)


def say(text):
    print(f"page: {text}", file=sys.stderr)


def native(script, plains, *more):
    """What the program prints of a script, and its status."""
    with tempfile.NamedTemporaryFile() as file:
        file.write(script.encode("latin1"))
        file.flush()
        words = [it for path in plains.split("\n") if path for it in ("--plain", path)]
        ran = subprocess.run([COAP, "sim", file.name, *words, *more], capture_output=True, timeout=60, check=False)
    return {"status": ran.returncode, "text": ran.stdout.decode("latin1")}


def text_of(page, name):
    return page.run(f"document.getElementById({json.dumps(name)}).textContent")


def press(page, name):
    page.run(f"document.getElementById({json.dumps(name)}).click()")


def fates(page):
    return json.loads(page.run("JSON.stringify(state.fates)"))


def listed(page, selector):
    return page.run(f"[...document.querySelectorAll({json.dumps(selector)})].map((it) => it.textContent)")


def middle(page, selector, index=0):
    """The middle of an element, in the window."""
    return page.run(f"""(() => {{
        const it = document.querySelectorAll({json.dumps(selector)})[{index}].getBoundingClientRect();
        return [it.x + it.width / 2, it.y + it.height / 2];
    }})()""")


def take_story(page, name):
    page.run(f"take(STORIES[{json.dumps(name)}]); window.scrollTo(0, 0)")


def lamps(page):
    return page.run("[...document.querySelectorAll('#lamps li')].map((it) => it.dataset.lamp)")


def as_the_program_says(page):
    """What is printed beside the picture is what the program prints of the script."""
    script, plains = page.run("[result.script, plainPaths()]")
    if COAP.exists():
        want(native(script, plains)["text"] == text_of(page, "native"), f"not the program's: {script}")
    return script


# ---- Stories ----


def ages(page):
    """The ages beside the reports, as the chart has them."""
    found = page.run("thingsIn(result.run.turns).filter((it) => it.age !== undefined).map((it) => it.age)")
    return [f"{it / 1000:g}" for it in found]


def stories(page, shots):
    for name in page.run("Object.keys(STORIES)"):
        press_story = f"document.querySelector('[data-story={name}]')"
        page.run(f"{press_story}.click()")
        want(text_of(page, "refusal") == "" and "bad" not in lamps(page), f"{name}: {lamps(page)}")
        want(page.run("state.story") == name, f"{name}: its link is another's")
        kept = page.run("result.run.outs.length")
        shown = page.run("document.querySelectorAll('#ladder .gram').length")
        want(kept == shown, f"{name}: {shown} of {kept} datagrams are drawn")
        told = re.findall(r", age ([\d.]+) s", text_of(page, "chart"))
        want(told == ages(page), f"{name}: ages {ages(page)}, and the chart has {told}")
        want(len(re.findall(r"still held|old$", "\n".join(listed(page, "#reports li")), re.M)) == len(told), name)
        file = page.run(f"STORIES[{json.dumps(name)}].file")
        script, told = EXAMPLES / f"{file}.sim", EXAMPLES / f"{file}.out"
        want(script.read_text() == page.run("result.script"), f"{name}: {script} differs")
        want(told.read_text() == text_of(page, "native"), f"{name}: {told} differs")
        as_the_program_says(page)
        link = page.run(f"{press_story}.href")
        page.go(link)
        want(page.run("state.story") == name, f"{name}: its link opens {page.run('state.story')}")
        if shots:
            page.shot(shots / f"{name}.png")


def old_values(page):
    """How old a report is stands beside it, in the list and in the picture."""
    take_story(page, "old")
    want(listed(page, "#reports li")[-1] == "91 s: 0: v2 “22 C”, 89.9 s old", str(listed(page, "#reports li")))
    want("0: v2 “22 C”, 89.9 s old" in listed(page, "#ladder .note"), str(listed(page, "#ladder .note")))
    want(listed(page, "#reports li")[0].endswith(", still held"), "the first value is the newest")


def playing(page):
    take_story(page, "lost")
    want(len(listed(page, "#reports li")) == 2, "two reports")
    press(page, "back")
    want(len(listed(page, "#ladder .gram")) == 0, "nothing is shown at the start")
    steps = 0
    while page.run("state.shown < result.made.turns.length"):
        press(page, "step")
        steps += 1
        want(text_of(page, "told") != "", "a step is not told to a screen reader")
    want(steps >= 10 and len(listed(page, "#reports li")) == 2, f"{steps} steps")
    page.run("document.getElementById('speed').value = '4'; document.getElementById('back').click(); play()")
    end = time.monotonic() + PLAYS_WITHIN_S
    while page.run("state.shown") <= 1 and time.monotonic() < end:
        time.sleep(0.05)
    want(page.run("state.shown") > 1 and text_of(page, "play") == "Pause", "it plays")
    page.run("play()")
    want(text_of(page, "play") == "Play", "it pauses")


# ---- The network ----


def drag(page, selector, by, finger=False):
    x, y = middle(page, selector)
    places = [(x, y + by * i / 10) for i in range(11)]
    if finger:
        page.finger(places)
        return
    page.mouse("mouseMoved", x, y)
    page.mouse("mousePressed", x, y)
    for x, y in places[1:]:
        page.mouse("mouseMoved", x, y, True)
    page.mouse("mouseReleased", x, y)


def drag_the_answer(page, finger):
    """The answer of a GET is dragged down; how late it is then."""
    head = "document.querySelector('[data-key=\"s0\"] .shaft').getAttribute('y2')"
    take_story(page, "get")
    before = float(page.run(head))
    drag(page, '[data-key="s0"] .knob', 100, finger)
    delay = fates(page).get("s0", [0])[0]
    want(400 < delay <= 100_000, f"dragging: {fates(page)}")
    want(float(page.run(head)) > before + 20, "the arrow has not moved")
    want("deliver 1\n" in as_the_program_says(page), "the answer is not delivered")
    return delay


def dragging(page, shots):
    for finger in (False, True):
        delay = drag_the_answer(page, finger)
    if shots:
        page.shot(shots / "dragged.png")
    script, link = page.run("[result.script, location.href]")
    page.go(link)
    want(page.run("result.script") == script and fates(page)["s0"] == [delay], "the link")


def clicking(page):
    page.run("take({ lines: '0 set t hi\\n0 call get t', plains: '', latency: 40, fates: {} }); window.scrollTo(0, 0)")
    page.mouse("mouseMoved", *middle(page, '[data-key="s0"] .hit'))
    page.click(*middle(page, '[data-key="s0"] .tool', 0))
    want(fates(page) == {"s0": []} and page.run("result.run.outs.length") == 4, f"losing: {fates(page)}")
    page.click(*middle(page, '[data-key="s0"] .tool', 1))
    want(fates(page) == {}, f"not losing: {fates(page)}")
    page.click(*middle(page, '[data-key="c0"] .tool', 2))
    want(fates(page) == {"c0": [40, 940]} and page.run("result.run.outs.length") == 3, f"twice: {fates(page)}")
    as_the_program_says(page)


def scripts(page):
    """A script is played as it is, and its link holds it."""
    script = (EXAMPLES / "older.sim").read_text()
    page.run(f"document.getElementById('script').value = {json.dumps(script)}")
    press(page, "run-script")
    want(text_of(page, "native") == (EXAMPLES / "older.out").read_text(), "another run")
    want(page.run("result.script") == script and "bad" not in lamps(page), str(lamps(page)))
    want("89.999 s old" in listed(page, "#reports li")[-1] or "90 s old" in listed(page, "#reports li")[-1],
         str(listed(page, "#reports li")))
    page.go(page.run("location.href"))
    want(page.run("result.script") == script, "its link")
    page.run("does.lose(result.run.outs[2])")
    want(page.run("state.script") is None and fates(page)["s1"] == [], "a datagram of it is taken")


def links(page):
    """A link that is damaged, or asks for what is refused, leaves a page that goes on."""
    start = page.run("location.href.split('#')[0]")
    for damaged in (
        "#a=%", "#s=%ff%00", "#a=0+call+get+t&f=c0:;c1;:x;s0:a,-1&l=-3", "#a=&f=c0:x", "#s=", "#l=9e99&a=0%20tick",
        "#a=0%20call%20put%20t%20{99999a}", "#a=0%20set%20t%20a%0A0%20call%20get%20t&f=c0:110000",
    ):
        page.go(start + damaged)
        press(page, "step")
        press(page, "shake")
        press(page, "play")
        press(page, "back")
        take_story(page, "get")
        want(text_of(page, "refusal") == "" and len(listed(page, "#reports li")) == 1, f"{damaged}: it does not go on")
        want(not page.said, f"{damaged}: {json.dumps(page.said)[:300]}")


# ---- The keyboard ----


def tab_to(page, words):
    """Goes on with Tab until what has the focus is so."""
    for _ in range(120):
        page.key("Tab")
        if page.run(f"Boolean({words})"):
            return
    raise Failed(f"Tab does not come to {words}")


def keyboard(page):
    """From the start of the page by keys alone: a story, time, a datagram, and what the network does with it."""
    page.go(page.run("location.href.split('#')[0]"))
    focus = "document.activeElement"
    tab_to(page, f"{focus}.dataset.story === 'get'")
    page.key("Enter")
    want(page.run("state.story") == "get", "a story by Enter")
    tab_to(page, f"{focus}.id === 'step'")
    page.key("Enter")
    want(page.run("state.shown") == 1, "a step by Enter")
    tab_to(page, f"{focus}.id === 'all'")
    page.key(" ")
    tab_to(page, f"{focus}.dataset.key === 's0'")
    page.key("ArrowDown")
    want(fates(page)["s0"] == [104], f"later: {fates(page)}")
    page.key("ArrowDown", shift=True)
    want(fates(page)["s0"] == [1104], f"a second later: {fates(page)}")
    page.key("Delete")
    want(fates(page)["s0"] == [] and "is lost" in text_of(page, "told"), "a screen reader is not told")
    page.key("2")
    want(len(fates(page)["s0"]) == 2, f"twice: {fates(page)}")
    page.key("1")
    want("s0" not in fates(page), f"once: {fates(page)}")
    page.key("Enter")
    want(page.run(f"{focus}.textContent") == "lose it", "Enter does not go to the datagram's controls")
    page.key("Escape")
    want(page.run(f"{focus}.dataset.key") == "s0", "Escape does not come back")
    page.key(" ")
    want(text_of(page, "play") == "Pause", "Space does not play")
    page.key(" ")


# ---- What is asked for, and what is refused ----


def bar(page):
    page.run("take({ lines: '', plains: '', latency: 40, fates: {} })")
    for call in ("set", "get", "observe", "put", "post", "cancel", "delete", "remove"):
        page.run(f"document.querySelector('[data-call={call}]').click()")
        want(text_of(page, "refusal") == "" and text_of(page, "say") == "", f"{call}: {text_of(page, 'say')}")
    want(len(page.run("state.lines").split("\n")) == 8, page.run("state.lines"))
    press(page, "strange-send")
    want("stranger server 127.0.0.1:9" in page.run("module_.all(result.script, '').text"), "a stranger")
    want("bad" not in lamps(page), str(lamps(page)))


def premises(page):
    """What breaks a premise is refused; the page says which one as README has it, and where."""
    named = page.run("PREMISES")
    want([it[:4] for it in named] == [f"({i + 1}) " for i in range(len(named))], f"premises: {named}")
    late = page.run("premiseOf(LATE)")
    take_story(page, "get")
    page.run("setFate(result.run.outs[0], [100001])")
    refused = text_of(page, "refusal")
    want(late in refused and "100001" in refused and "“100001 deliver 0”" in refused, refused)
    want(fates(page).get("c0") == [5], "a refused delay stays")
    page.run("setFate(result.run.outs[0], [100000])")
    want(text_of(page, "refusal") == "", text_of(page, "refusal"))
    for script, premise in (
        ("5 set t a\\n4 set t b\\n", page.run("premiseOf(CLOCKS)")),
        ("0 stranger server 40001 00\\n", page.run("premiseOf(ADDRESSES)")),
        ("0 deliver 0\\n", "was not given out"),
        ("0 stranger server 9 40000001\\n0 deliver 0\\n", "which is no end"),
        ("0 nothing\\n", ""),
    ):
        page.run(f"document.getElementById('script').value = '{script}'")
        press(page, "run-script")
        want(premise in text_of(page, "refusal"), f"{script}: {text_of(page, 'refusal')}")
        want(page.run("document.getElementById('script').value") == script.replace("\\n", "\n"), "the script is gone")
    want(text_of(page, "say") == "line 1: this line can't be read", text_of(page, "say"))
    want(len(listed(page, "#premises li")) == len(named), "the premises are not listed")


def lamps_turn_red(page):
    """Each part of each promise turns its lamp red in the record that is made up for it."""
    parts = page.run("promisesIn([]).flatMap((it) => it.parts.map((part) => part.name))")
    want(page.run("BROKEN.map((it) => it.part)") == parts, f"a made up record for each of {parts}")
    for name in parts:
        press(page, "broken")
        red = page.run("brokenIn(promisesIn(result.made.turns, result.run.turns.length)).map((it) => it.name)")
        also = page.run("BROKEN[state.broken].also || []")
        want(red == [*also, name], f"{name}: {red}")
        want(lamps(page).count("bad") == 1, f"{name}: {lamps(page)}")
        want("broken" in "".join(listed(page, "#lamps b")), f"{name}: it is not said in words")
        want(text_of(page, "madeup").startswith("Made up: "), "it is not marked")
        press(page, "back")
        want("bad" not in lamps(page), f"{name}: it is red before the first event")
        while page.run("state.shown < result.made.turns.length"):
            press(page, "step")
        want(lamps(page).count("bad") == 1, f"{name}: step by step {lamps(page)}")
    take_story(page, "lost")
    want(page.run("document.getElementById('madeup').hidden"), "the mark stays")


# ---- Looks, and who can't see ----


def looks(page):
    """Light and dark are two, and in both what is written stands out from its ground."""
    grounds = set()
    for scheme in ("dark", "light"):
        page.colours(scheme)
        grounds.add(page.run("getComputedStyle(document.body).backgroundColor"))
        for name, least in [*((it, LEAST_CONTRAST) for it in ("ink", "soft", "bad", "good", "accent")),
                            *((f"v{i}", LEAST_DRAWN) for i in range(1, 9))]:
            for ground in ("bg", "card"):
                found = contrast(*(page.run(COLOUR % it) for it in (name, ground)))
                want(found >= least, f"{scheme}: {name} on {ground}: {found:.1f}")
    want(len(grounds) == 2, f"light and dark are one: {grounds}")


def contrast(one, other):
    """How much lighter the one is than the other (WCAG 2.2, its contrast ratio)."""

    def luminance(colour):
        parts = [int(colour[i : i + 2], 16) / 255 for i in (1, 3, 5)]
        lit = [it / 12.92 if it <= 0.04045 else ((it + 0.055) / 1.055) ** 2.4 for it in parts]
        return 0.2126 * lit[0] + 0.7152 * lit[1] + 0.0722 * lit[2]

    low, high = sorted((luminance(one), luminance(other)))
    return (high + 0.05) / (low + 0.05)


def phone(page, shots):
    """A phone's width, by a finger alone."""
    page.size(*PHONE, is_phone=True)
    try:
        page.go(page.run("location.href.split('#')[0]"))
        width = "document.documentElement.scrollWidth"
        for name in page.run("Object.keys(STORIES)"):
            take_story(page, name)
            want(page.run(width) <= PHONE[0], f"{name}: {page.run(width)} pixels are wider than a phone")
        want(page.run("document.getElementById('ladder').viewBox.baseVal.width") < 500, "the picture is wide")
        take_story(page, "get")
        page.run("document.getElementById('ladder').scrollIntoView({ block: 'start' })")
        page.finger([middle(page, '[data-key="s0"] .hit')])
        want(page.run("state.chosen") == "s0", "a finger does not choose")
        x, y = middle(page, "#inspect button")
        want(0 < y < PHONE[1], f"its controls are at {y}")
        small = page.run(f"""[...document.querySelectorAll('button, .story, select')].filter((it) => it.offsetHeight &&
            it.offsetHeight < {LEAST_TARGET}).map((it) => it.textContent)""")
        want(not small, f"too small for a finger: {small}")
        page.finger([(x, y)])
        want(fates(page)["s0"] == [], f"a finger does not lose it: {fates(page)}")
        if shots:
            page.shot(shots / "phone.png")
        page.finger([middle(page, "#leave")])
        want(page.run("state.chosen") is None, "the controls stay open")
        page.run("take(STORIES.get); document.getElementById('ladder').scrollIntoView({ block: 'start' })")
        before = page.run("window.scrollY")
        drag(page, '[data-key="s0"] .knob', 90, finger=True)
        want(fates(page)["s0"][0] > 300, f"a finger does not drag: {fates(page)}")
        want(page.run("window.scrollY") == before, "dragging scrolls")
    finally:
        page.size(*DESK)
        page.run("window.dispatchEvent(new Event('resize'))")


def screen_reader(page):
    """What is there has a name, and what happens is told."""
    take_story(page, "lost")
    seen = page.accessible()
    operated = ("button", "link", "textbox", "combobox", "slider", "spinbutton", "DisclosureTriangle")
    nameless = [role for role, name in seen if role in operated and not name.strip()]
    want(not nameless, f"without a name: {nameless}")
    datagrams = [name for role, name in seen if role == "button" and name.startswith("Datagram ")]
    want(len(datagrams) == page.run("result.run.outs.length"), f"{len(datagrams)} datagrams are read")
    want("Datagram 1 of the server at 40 ms: ACK 0000 Changed; it is lost" in datagrams, str(datagrams))
    wanted = {"told": "polite", "reports": "polite", "refusal": "alert", "say": "alert", "madeup": "status"}
    live = page.run(f"""{json.dumps(list(wanted))}.map((it) => document.getElementById(it))
        .map((it) => it.getAttribute('aria-live') || it.getAttribute('role'))""")
    want(live == list(wanted.values()), f"live regions: {live}")


def lacking(page, file):
    """A browser that can't run the module is told so in a sentence, and so is one that can't run the script."""
    heard = len(page.said)
    no_module = "<script>WebAssembly.instantiate = () => Promise.reject(new Error('no such memory'));</script>"
    for text, sentence in (
        (file.read_text().replace("<script>", f"{no_module}\n<script>", 1), "can't run the page (no such memory)."),
        (file.read_text().replace("<script>", "<script>}", 1), "The page needs a browser with"),
    ):
        with tempfile.TemporaryDirectory() as room:
            lacks = pathlib.Path(room) / "lacks.html"
            lacks.write_text(text)
            page.go(lacks.as_uri(), "document.readyState === 'complete' && !document.getElementById('fault').hidden")
        said = text_of(page, "fault")
        want(sentence in said and "64-bit memory" in said, f"it says {said}")
        want(page.run("document.getElementById('fault').offsetHeight > 0"), "the sentence is hidden")
    del page.said[heard:]
    page.go(file.as_uri())
    want(page.run("document.getElementById('fault').hidden"), "it says so of a browser that has it")


# ---- At random ----

KEYS = ["Tab", "Tab", "ArrowDown", "ArrowUp", "Delete", "2", "1", " ", "ArrowRight", "Enter", "Escape"]


def at_random(page, seconds=None):
    dice = random.Random(SEED)
    seconds = SECONDS if seconds is None else seconds
    end = time.monotonic() + seconds
    clicks = 0
    width, height = page.run("[innerWidth, innerHeight]")
    while time.monotonic() < end:
        page.run(f"window.scrollTo(0, {dice.randrange(900)})")
        x, y = dice.randrange(width - 20), dice.randrange(height - 220)
        if dice.randrange(4) == 0:
            page.mouse("mouseMoved", x, y)
            page.mouse("mousePressed", x, y)
            page.mouse("mouseMoved", x, y + dice.randrange(200), True)
            page.mouse("mouseReleased", x, y)
        elif dice.randrange(3) == 0:
            page.key(dice.choice(KEYS))
        else:
            page.click(x, y)
        clicks += 1
        want(page.run("document.body.dataset.ready") == "yes", "the page is gone")
        if clicks % 40 == 0:
            take_story(page, dice.choice(page.run("Object.keys(STORIES)")))
    want("bad" not in lamps(page) or page.run("state.broken") >= 0, "a lamp is red")
    say(f"{clicks} random clicks and keys in {seconds} s")
