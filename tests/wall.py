"""What a dispatcher sees of a centre: the page in a headless Chromium, while trains move, while one looks back, and while the centre is
frozen, killed and started again. `Centre` starts a centre with a page; what it is told is compared with what the page draws."""
import contextlib
import json
import os
import pathlib
import re
import signal
import tempfile
import time

from browser import Browser, found
from colours import contrast
from drawings import Wrong, check_scene, expect, metres_of, scenes_of
from guests import ask_once
from harness import LONGEST_WAIT, ROOT, Connection, free_port

TRACK = f"{ROOT}/examples/station.toml"
OTHER_TRACK = f"{ROOT}/examples/scissors.toml"
SOON = 10  # seconds, in which the page tells what has changed on a loaded machine
SILENCE = 5  # seconds without an answer, until the page tells
MOST_KEPT = 1_000
COMES = ["lock line_west", "report 101 80/201 nominal 250 5 5 180 2160000", "ask 101", "lock in_1_west", "ask 101",
         "report 101 80/202 nominal 40 5 5 180 2169000", "report 101 80/211 nominal 255 5 5 180 2173000", "free WEST", "free W", "free W1"]
ROUTES = {"line_west": "WEST", "in_1_west": "W W1 P1"}
COMES_TOO = ["lock line_east", "report 204 80/222 nominal 60 8 8 220 2220000", "ask 204"]
ALLOWED = ("log: Failed to load resource", "on purpose")  # what a browser says of a centre that is not there, and what a test does to the page
GROUNDS = ("(() => { for (let at = e; at; at = at.parentElement) { const c = getComputedStyle(at).backgroundColor;"
           " if (!/, 0\\)$|transparent/.test(c)) return c; } })()")


class Page:
    """The page of a centre in a browser."""

    def __init__(self, browser, centre):
        self.browser, self.say, self.port = browser, browser.say, centre.page
        browser.open(f"http://127.0.0.1:{centre.page}/")

    def all(self, selector, value):
        return json.loads(self.say(f"JSON.stringify(Array.from(document.querySelectorAll({json.dumps(selector)}), e => {value}))"))

    def texts(self, selector):
        return self.all(selector, "e.textContent")

    def told(self, selector):
        return " ".join(self.texts(selector))

    def comes_to(self, expression, words, seconds=SOON):
        """Waits until this holds."""
        end = time.monotonic() + seconds
        while not self.say(f"(() => {{ try {{ return Boolean({expression}); }} catch {{ return false; }} }})()"):
            expect(time.monotonic() < end, f"it does not come to this: {words}", (self.bar(), self.told("#spoken"), self.told("#sceneHead")))
            time.sleep(0.05)

    def bar(self):
        return self.told("#live")

    def spoken(self):
        """What a screen reader was told last, the newest behind the others."""
        return [words.strip() for words in self.texts("#spoken span")]

    def shows(self, version):
        """Waits until this version is drawn, live."""
        self.comes_to(f"document.querySelector('#sceneHead h2').textContent === 'Scene of version {version}'"
                      " && document.getElementById('live').className === 'live'", f"version {version}, live")

    def press(self, *keys):
        for key in keys:
            self.browser.press(key)


def tell(client, lines):
    """Tells the centre, which has to accept each line. The version."""
    version = None
    for line in lines:
        words = client.ask(line)[0].split()
        expect(words[0] in ("ok", "granted"), line, words)
        version = int(words[1 if words[0] == "ok" else 2])
    return version


# ---- the parts


def has_another_track(page, centre, start):
    """A centre that is started again on another track is drawn anew, and what was of the track before is gone."""
    centre.process.kill()
    centre.process.communicate()
    centre = start()
    try:
        lines = ask_once(centre.page, "/track").body.decode()
        page.comes_to(f"document.getElementById('section-{[*metres_of(lines)][0]}')", "the other track is drawn", 2 * SOON)
        page.shows(0)
        check_scene(page, metres_of(lines), {}, {})
        log = page.texts("#log li")
        expect(len(log) == 1 and "the centre began anew" in log[0], "no scene of the track before is left", log)
    except BaseException:
        centre.process.kill()
        raise
    return centre


def draws_each_scene(page, client, centre):
    """What is drawn is the scene that the centre has, and what has changed since the one before is marked."""
    page.shows(0)
    for line in COMES:
        version = tell(client, [line])
        page.shows(version)
        scene = ask_once(centre.page, "/scene").body.decode()
        track = ask_once(centre.page, "/track").body.decode()
        check_scene(page, metres_of(track), *list(scenes_of(track + scene))[-1][1:])
        check_marks(page, line)
    expect(page.say("document.getElementById('slider').max") == page.say("String(state.text.frames.length - 1)"), "the slider has them all")
    expect(page.told("#log [aria-current]").startswith(f"{version}freed W1 "), "the newest one among what has changed", page.texts("#log li"))


def check_marks(page, line):
    """The marks in the picture, in the table and in the list of changes."""
    words = line.split()
    changed = page.all("#picture g.other", "e.id.slice('section-'.length)")
    row, log = page.told("#sceneTable .changed"), page.told("#log [aria-current]")
    if words[0] == "lock":
        bands = page.all("#picture .lock-edge.other", "e.getAttribute('d')")
        paths = page.all("#picture g.other .rail", "e.getAttribute('d')")
        expect(changed == ROUTES[words[1]].split() and bands == paths, f"{line}: the sections are marked", (changed, bands))
        expect(f"locked {ROUTES[words[1]]} " in log, f"{line}: it is told", log)
    elif words[0] == "free":
        widths = page.all("#picture g.other .free", "getComputedStyle(e).strokeWidth")
        expect(changed == [words[1]] and widths == ["4px"], f"{line}: the section is marked", (changed, widths))
        expect(f"freed {words[1]} " in log, f"{line}: it is told", log)
    elif words[0] == "report":
        told = "new" if words[2] == "80/201" else "moved"
        expect(page.all("#train-101", "e.classList.contains('moved')") == [True] and told in row and f"101 {told}" in log, line, (row, log))
        expect(not changed, "no section is marked", changed)
    else:
        expect("authority" in row and page.all("#train-101", "e.classList.contains('held')") == [True], line, (row, log))


def keeps_its_place(page, client, _centre):
    """Size, scroll place, focus and a chosen train are kept while scenes come in."""
    page.browser.size(700, 400)
    time.sleep(0.5)
    page.press("+", "+")
    page.say("document.querySelector('tr[data-train=\"101\"]').click()")
    page.say("document.querySelector('tr[data-train=\"101\"]').focus({ preventScroll: true })")
    page.say("scrollTo(0, 150)")
    held = "JSON.stringify([state.zoom, scrollY, document.activeElement.dataset.train, document.querySelectorAll('.lit').length])"
    before = page.say(held)
    expect(json.loads(before)[1:] == [150, "101", 2], "it is scrolled, and a train is chosen", before)
    for line in COMES_TOO:
        page.shows(tell(client, [line]))
        expect(page.say(held) == before, "it is kept", (before, page.say(held)))
    page.say("document.activeElement.blur()")
    page.shows(tell(client, ["report 204 80/222 nominal 70 8 8 220 2220500"]))
    lit = page.all(".lit", "e.id || e.dataset.train")
    expect(lit == ["train-101", "101"], "a chosen train stays lit without the focus", lit)
    page.press("Escape")
    expect(page.all(".lit", "1") == [], "Escape lets the train go")
    page.press("0")
    page.browser.size(1280, 900)


def looks_back(page, client, _centre):
    """One looks back while scenes come in, and is live again by a key or a button."""
    page.press("Home", "ArrowRight")
    first = page.told("#sceneHead h2")
    expect("Looking back" in page.bar() and page.say("document.title").startswith("\u25c2"), "it is told", page.bar())
    count = page.say("state.text.frames.length")
    version = tell(client, ["report 204 80/222 nominal 100 8 8 220 2221000"])
    page.comes_to(f"state.text.frames.length === {count} + 1", "a scene comes in meanwhile")
    expect(page.told("#sceneHead h2") == first and f"the newest is {version}" in page.bar(), "what is looked at stays", page.bar())
    page.press("End")
    page.shows(version)
    page.press("ArrowLeft")
    expect("Looking back" in page.bar(), "it looks back again", page.bar())
    check_contrasts(page)
    page.say("document.getElementById('now').click()")
    page.shows(version)
    keeps_a_thousand(page)


def keeps_a_thousand(page):
    """Of more than a thousand scenes the oldest is dropped, and what is looked at stays."""
    page.press("Home", *["ArrowRight"] * 5)
    looked, count = page.told("#sceneHead h2"), page.say("state.text.frames.length")
    body = "scene 7\ndone\n"
    page.say(f"for (let at = 0; at < {MOST_KEPT} - {count} + 3; at++) addFrame('7', '00:00:00', {json.dumps(body)}, false)")
    expect(page.say("state.text.frames.length") == MOST_KEPT and page.say("state.at") == 2, "a thousand are kept", page.say("state.at"))
    page.say("showScene()")
    expect(page.told("#sceneHead h2") == looked, "the one that is looked at", (looked, page.told("#sceneHead h2")))
    page.say(f"for (let at = 0; at < {MOST_KEPT}; at++) addFrame('7', '00:00:00', {json.dumps(body)}, false)")
    expect(page.say("state.at") == 0, "until it is the oldest", page.say("state.at"))
    page.press("End")


def tells_silence(page, client, centre):
    """A centre that is frozen is told as such, with the seconds, and no longer once it goes on."""
    os.kill(centre.process.pid, signal.SIGSTOP)
    try:
        is_told_silent(page)
    finally:
        os.kill(centre.process.pid, signal.SIGCONT)
    page.comes_to("document.getElementById('live').className === 'live'", "it answers again", 2 * SOON)
    expect("anew" not in page.bar() and page.spoken()[-1] == "The centre answers again.", "no new beginning is told", page.bar())
    page.shows(tell(client, ["report 204 80/222 nominal 150 8 8 220 2222000"]))


def tells_its_own_fault(page, client, _centre):
    """A script that fails at a scene says so, and draws the next one."""
    page.say("window.drawn = drawScene; drawScene = () => { throw new Error('on purpose'); }")
    tell(client, ["report 204 80/222 nominal 160 8 8 220 2223000"])
    page.comes_to("/This page fails/.test(document.getElementById('liveState').textContent)", "it is told")
    time.sleep(1.5)
    expect("This page fails" in page.bar(), "also where the same scene comes again", page.bar())
    page.say("drawScene = window.drawn")
    page.shows(tell(client, ["report 204 80/222 nominal 170 8 8 220 2224000"]))


def is_told_silent(page):
    page.comes_to("/since [0-9]+ s/.test(document.getElementById('liveState').textContent)", "silence is told", SILENCE + SOON)
    first = silence_in(page)
    expect(page.say("document.getElementById('live').className") == "live silent", "in red", page.bar())
    expect("what is shown is old" in page.bar() and page.spoken()[-1] == "The centre does not answer.", "in words", page.bar())
    expect(page.say("document.title").startswith("\u2717 no answer"), "in the title", page.say("document.title"))
    check_contrasts(page)
    page.comes_to(f"Number(document.getElementById('liveState').textContent.match(/[0-9]+/)[0]) >= {first + 2}", "the seconds go on")


def silence_in(page):
    return int("".join(filter(str.isdigit, page.told("#liveState"))))


def goes_on_behind_a_kill(page, centre, start):
    """A centre that is killed and started again is told as begun anew, with its versions, and followed."""
    version = ask_once(centre.page, "/scene").tag()[1]
    centre.process.kill()
    centre.process.communicate()
    is_told_silent(page)
    centre = start()
    try:
        now = ask_once(centre.page, "/scene").tag()[1]
        bar, words = "document.getElementById('live')", f"with version {now} behind {version}"
        page.comes_to(f"{bar}.textContent.includes('{words}')", "the new beginning is told, with its versions", 2 * SOON)
        expect(page.say(f"{bar}.className") == "live", "it is live again", page.bar())
        expect(f"The centre began anew, with version {now} behind {version}." in page.spoken(), "and spoken of", page.spoken())
        expect("the centre began anew" in page.told("#log [aria-current]"), "and listed", page.texts("#log li"))
        client = Connection(centre.port)
        page.shows(tell(client, ["report 204 80/222 nominal 300 8 8 220 2240000"] if now else ["lock line_west"]))
        client.end()
    except BaseException:
        centre.process.kill()
        raise
    return centre


def check_contrasts(page):
    for scheme in "light", "dark":
        page.browser.prefer(color_scheme=scheme)
        texts = page.all("#live b, #live span, #live button, #log li, .changed, #step", f"[e.textContent, getComputedStyle(e).color, {GROUNDS}]")
        for words, colour, behind in texts:
            expect(not words or contrast(colour, behind) >= 4.5, f"a text in the {scheme}", (words, contrast(colour, behind)))
        paper = page.say("getComputedStyle(document.body).backgroundColor")
        marks = "#legend .lock-edge.other, #legend .other .free, #legend .bar, #legend .moved .front"
        for kind, colour in page.all(marks, "[e.className.baseVal, getComputedStyle(e).stroke]"):
            expect(contrast(colour, paper) >= 3, f"a mark in the {scheme}", (kind, colour))
    page.browser.prefer()


def can_be_read(page):
    """Contrast, letters, widths, and what a screen reader is told, in the light and in the dark."""
    check_contrasts(page)
    for width in 1600, 1280, 700, 360:
        page.browser.size(width, 900)
        time.sleep(0.4)
        expect(page.say("document.documentElement.scrollWidth") <= width, f"it fits {width} pixels", page.say("document.documentElement.scrollWidth"))
        size = "e.textContent.trim() && e.getClientRects().length ? parseFloat(getComputedStyle(e).fontSize) : 99"
        small = page.all("body *:not(script):not(style)", size)
        expect(min(small) >= 11, "letters of 11 pixels", min(small))
    page.browser.size(1280, 900)
    speaking = page.all("[aria-live], [role=status], [role=alert]", "[e.id, e.getAttribute('aria-live') || e.getAttribute('role')]")
    expect(speaking == [["spoken", "polite"], ["sceneHead", "off"]], "one place speaks", speaking)


def speaks_little(page, client, _centre):
    """Many scenes are no flood of words."""
    page.say("window.words = []; window.heard = new MutationObserver(() => words.push(byId('spoken').lastChild.textContent))")
    page.say("heard.observe(byId('spoken'), { childList: true })")
    for number in range(20):
        page.shows(tell(client, [f"report 204 80/222 nominal {200 + number} 8 8 220 {2230000 + number}"]))
    expect(page.say("words.length") <= 2, "it speaks seldom", page.say("words"))


def speaks_of_overlaps(page, client, centre):
    """An overlap, which no centre makes, is told as long as it is there, and spoken of once."""
    scene = ask_once(centre.page, "/scene").body.decode()
    other = "".join(re.sub(r"^(\w+) 204", r"\1 999", line) for line in re.findall(r"(?m)^\w+ 204.*\n", scene))
    body = scene.replace("done\n", other + "done\n")
    count = page.say("words.length")
    for number in "1", "2":
        page.say(f"addFrame('{number}', '00:00:00', {json.dumps(body)}, false)")
        expect("Trains 204 and 999 may stand on the same metres" in page.told("#sceneHead .alarm"), "it is told", page.told("#sceneHead"))
    time.sleep(0.2)
    spoken = [words for words in page.say("words.slice(%d)" % count) if "999" in words]
    expect(len(spoken) == 1 and "hold the same metres" in spoken[0], "it is spoken of once", spoken)
    page.shows(tell(client, ["report 204 80/222 nominal 230 8 8 220 2230100"]))
    expect(not page.all(".alarm", "1"), "and no longer told")


# ---- all


def look_at_all(start, count):
    """Each part is a case. Where there is no Chromium that is told, and nothing is counted."""
    if not found():
        print("the page is not looked at in a browser: there is no Chromium here")
        return
    with a_browser() as browser, tempfile.TemporaryDirectory() as room:
        look_at(Cases(browser, count), start, room)


@contextlib.contextmanager
def a_browser():
    browser = Browser(found())
    try:
        yield browser
    finally:
        browser.close()


def refuse_wrong_ones(start, count, words):
    """Tries each wrong viewer, or those whose name has such a word, until a case fails on it."""
    right = pathlib.Path(ROOT, "viewer", "viewer.html").read_text("ascii")
    wrong = pathlib.Path(ROOT, "tests", "wrong_pages.txt").read_text("ascii")
    for name, old, new in re.findall(r"^wrong: (.*)\nold: (.*)\nnew: ?(.*)$", wrong, re.M):
        if words and not any(word in name for word in words):
            continue
        if right.count(old) != 1:
            count.tell(name, f"stands {right.count(old)} times: {old}")
            continue
        told = refusal(start, right.replace(old, new).encode())
        count.tell(name, None if told else "it is not refused")
        print(f"{name}: {told or 'MISSED'}"[:200], flush=True)


def refusal(start, viewer):
    """The first case that fails on a viewer, with its fault."""
    with a_browser() as browser, tempfile.TemporaryDirectory() as room:
        try:
            look_at(Cases(browser, None), start, room, viewer)
        except Refused as fault:
            return str(fault)
    return None


class Refused(Exception):
    """A case that failed on a wrong viewer."""


class Cases:
    """Counts cases, each of which also fails at a fault of the page's script, and at a request to another server."""

    def __init__(self, browser, count):
        self.browser, self.count = browser, count

    def run(self, part, *what):
        begin, fault, value = time.monotonic(), None, None
        try:
            value = part(*what)
        except Wrong as wrong:
            fault = str(wrong)
        except Exception as broken:  # what the page shows is not what can be read, or the centre does not answer
            fault = f"{type(broken).__name__}: {broken}"
        heard = [one for one in self.browser.faults if not any(words in one for words in ALLOWED)]
        asked = [url for url in self.browser.requests if not url.startswith(self.own)]
        self.browser.faults.clear()
        self.browser.requests.clear()
        fault = fault or (f"the script or the console: {heard}" if heard else None) or (f"it asks another server: {asked}" if asked else None)
        if fault and not self.count:
            raise Refused(f"{part.__name__}: {fault}")
        if not self.count:
            return value
        self.count.tell(f"browser: {part.__name__}", fault)
        print(f"browser: {part.__name__}: {time.monotonic() - begin:.1f} s", flush=True)
        return value


def look_at(cases, start, room, viewer=None):
    page_port = free_port()
    begin = lambda journal, track=TRACK: start("--journal", f"{room}/{journal}", track=track, page=page_port)
    cases.own = f"http://127.0.0.1:{page_port}/"
    centre = begin("journal")
    try:
        cases.browser.size(1280, 900)
        if viewer:
            cases.browser.serve(cases.own, viewer)
        page, client = Page(cases.browser, centre), Connection(centre.port)
        for part in draws_each_scene, keeps_its_place, speaks_little, speaks_of_overlaps, looks_back, tells_silence, tells_its_own_fault:
            cases.run(part, page, client, centre)
        cases.run(can_be_read, page)
        for journal in "journal", "another":  # the second time versions go back
            centre = cases.run(goes_on_behind_a_kill, page, centre, lambda: begin(journal)) or centre
        centre = cases.run(has_another_track, page, centre, lambda: begin("a third one", OTHER_TRACK)) or centre
    finally:
        centre.process.kill()
        centre.process.communicate(timeout=LONGEST_WAIT)
