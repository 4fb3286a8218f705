"""What a page of the viewer shows, against what its text says: `look` has a page in a browser, of which it reads values.

Sections are where the page drew them. All else is computed from the text."""
import itertools
import json
import re


class Wrong(Exception):
    """What is wrong with a case."""


def expect(holds, words, seen=""):
    if not holds:
        raise Wrong(f"{words}: {seen}" if seen != "" else words)


def near(one, other, most=0.6):
    return all(abs(a - b) <= most for a, b in zip(one, other))


# ---- an own reading of the text


def metres_of(text):
    """The sections of a track, with their metres."""
    return {words[1]: int(words[2]) for words in map(str.split, text.split("\ndone\n", 1)[0].splitlines()) if words[0] == "section"}


def scenes_of(text):
    """Each scene: its version, its locks by section, and its trains by number."""
    for part in re.findall(r"^scene .*?^done$", text, re.M | re.S):
        rows, trains = {}, {}
        for words in map(str.split, part.splitlines()):
            if words[0] == "locked":
                rows[words[1][:-1]] = {"sign": words[1][-1], "route": words[2], "behind": words[3]}
            elif words[0] == "line":
                trains[words[1]] = {"origin": int(words[2]), "legs": words[3:]}
            elif words[0] == "along":
                trains[words[1]]["legs"] += words[2:]
            elif words[0] == "stands":
                trains[words[1]].update(rear=int(words[2]), front=int(words[3]))
            elif words[0] == "holds":
                trains[words[1]].update(start=int(words[2]), to=int(words[3]))
            elif words[0] == "next":
                trains[words[1]].update(next=None if words[2] == "-" else int(words[2]))
        yield int(part.split()[1]), rows, trains


def way_of(train, rows):
    """A train's legs, and on as far as the locks lead."""
    behind = {row["behind"]: section + row["sign"] for section, row in rows.items()}
    legs = list(train["legs"])
    while legs[-1] in behind and behind[legs[-1]][:-1] not in [leg[:-1] for leg in legs]:
        legs.append(behind[legs[-1]])
    return legs


def spot(metres, train, legs, distance, ends=True):
    """The section and the offset of the point so far from the group: as the end of what lies before it, or the start of what lies behind."""
    rest = train["origin"] + distance
    for leg in legs:
        length = metres[leg[:-1]]
        if rest < length or ends and rest == length:
            return leg[:-1], rest if leg[-1] == "+" else length - rest
        rest -= length
    raise Wrong(f"the line of a train ends before {distance} m")


def covered(metres, train, start, to):
    """Each metre of a section from one distance to another."""
    found, at = set(), -train["origin"]
    for leg in train["legs"]:
        length = metres[leg[:-1]]
        for place in range(max(start - at, 0), min(to - at, length)):
            found.add((leg[:-1], place if leg[-1] == "+" else length - 1 - place))
        at += length
    return found


def overlaps_of(metres, trains):
    """What is told of each two trains that share metres, with these metres."""
    stands = {number: covered(metres, train, train["rear"], train["front"]) for number, train in trains.items()}
    holds = {number: covered(metres, train, train["start"], train["to"]) for number, train in trains.items()}
    told = {}
    for one, other in itertools.combinations(trains, 2):
        told[f"trains {one} and {other} may stand on the same metres"] = stands[one] & stands[other]
        told[f"trains {one} and {other} hold the same metres"] = holds[one] & holds[other]
        told[f"train {one} may stand where train {other} holds"] = stands[one] & holds[other]
        told[f"train {other} may stand where train {one} holds"] = stands[other] & holds[one]
    return {words: shared for words, shared in told.items() if shared}


# ---- what is drawn of a scene


def point(words):
    return tuple(map(float, words.split()))


def pieces(path):
    """A path of straight pieces, as lists of points."""
    return [[point(words) for words in piece.split("L")] for piece in path.split("M")[1:]]


def along(path, part):
    """Where a section that is drawn so, perhaps in several bands, has this part of its length."""
    drawn = pieces(path)
    want = part * sum(abs(piece[-1][0] - piece[0][0]) for piece in drawn)
    for piece in drawn:
        size = abs(piece[-1][0] - piece[0][0])
        if want <= size + 0.2:
            return piece[0][0] + want * (1 if piece[-1][0] >= piece[0][0] else -1), piece[0][1]
        want -= size
    return drawn[-1][-1]


SEEN = """JSON.stringify((() => {
  const all = (selector, value) => Array.from(document.querySelectorAll(selector), value), d = e => e.getAttribute('d');
  return {
    sections: Object.fromEntries(all('#picture g[id^="section-"]', g => [g.id.slice(8), d(g.querySelector('path'))])),
    looks: Object.fromEntries(all('#picture g[id^="section-"]', g => [g.id.slice(8), g.querySelector('path').className.baseVal])),
    trains: Object.fromEntries(all('#picture g.train', g => [g.id.slice(6), { front: g.dataset.front, end: g.dataset.end,
      body: g.querySelector('.body') && d(g.querySelector('.body')), hold: g.querySelector('.hold') && d(g.querySelector('.hold')),
      goal: g.querySelector('.goal') && d(g.querySelector('.goal')), colour: getComputedStyle(g.querySelector('.front')).fill }])),
    titles: Object.fromEntries(all('#picture g.train', g => [g.id.slice(6), Array.from(g.querySelectorAll('title'), t => t.textContent).join('; ')])),
    links: all('#picture path.rail, #picture path.free', e => e).filter(e => !e.closest('g[id]')).map(e => [e.className.baseVal, d(e)]),
    tops: state.layout.bands.map(band => band.top),
    bands: all('#picture > path.lock', d),
    arrows: all('#picture .arrow', e => [e.dataset.section, d(e)]),
    hatched: all('#picture .clash', e => [e.parentNode.firstChild.textContent, d(e)]),
    told: all('#sceneHead .alarm', e => e.textContent).join(' '),
    rows: all('#sceneTable tbody tr', row => [row.dataset.train, ...Array.from(row.cells, cell => cell.textContent)]),
    dots: Object.fromEntries(all('#sceneTable tbody tr', row => [row.dataset.train, getComputedStyle(row.querySelector('.dot')).backgroundColor])),
    locks: all('#lockTable tbody tr', row => Array.from(row.cells, cell => cell.textContent)),
  };
})())"""


def check_scene(look, metres, rows, trains):
    seen = json.loads(look.say(SEEN))
    expect(sorted(seen["sections"]) == sorted(metres), "each section is drawn once", len(seen["sections"]))
    for section in metres:
        expect(seen["looks"][section] == ("rail" if section in rows else "free"), "a section is drawn as locked where it is", section)
    banded = {section for section, path in seen["sections"].items() if path in seen["bands"]}
    expect(banded == set(rows), "the locked sections have the band", banded ^ set(rows))
    check_locks(seen, metres, rows)
    expect([row[0] for row in seen["rows"]] == list(trains), "the table has each train, in order", seen["rows"])
    expect(sorted(seen["trains"]) == sorted(trains), "each train is drawn", sorted(seen["trains"]))
    for row in seen["rows"]:
        check_row(row, metres, trains[row[0]], way_of(trains[row[0]], rows))
        expect(f"train {row[0]} may stand on {row[2]}" in seen["titles"][row[0]], "what a pointer is told", seen["titles"][row[0]])
    for number, train in trains.items():
        check_train(seen, number, metres, train, way_of(train, rows))
    colours = [seen["trains"][number]["colour"] for number in trains]
    expect(all(one != other for one, other in zip(colours, colours[1:])), "neighbours have different colours", colours)
    expect(len(set(colours)) >= min(len(trains), 5), "trains have colours of their own", colours)
    check_overlaps(seen, metres, trains)


def check_locks(seen, metres, rows):
    told = {cells[0]: cells[1:] for cells in seen["locks"]}
    expect(len(seen["locks"]) == len(rows) == len(told), "the table of locks has each", len(seen["locks"]))
    for section, row in rows.items():
        behind = "\u2013" if row["behind"] == "-" else row["behind"]
        words = ["rising metres" if row["sign"] == "+" else "falling metres", row["route"], behind, str(metres[section])]
        expect(told[section] == words, "a row of the table of locks", (section, told[section], words))
    for section, path in seen["arrows"]:
        line = pieces(seen["sections"][section])[0]
        points_right = (line[-1][0] > line[0][0]) == (rows[section]["sign"] == "+")
        step = float(re.match(r"M[-\d.]+ [-\d.]+l(-?[\d.]+) ", path)[1])
        expect((step > 0) == points_right, "an arrow points in the direction of the lock", section)


def turned(leg):
    return leg[:-1] + ("-" if leg[-1] == "+" else "+")


def links_of(text):
    return re.findall(r"^link (\S+) (\S+)$", text.split("\ndone\n", 1)[0], re.M)


def check_links_in_words(look, text):
    """At both ends of each link a text tells the leg that it leads to, or that there are more than it has room for."""
    sections = json.loads(look.say(SEEN))["sections"]
    told = look.all("#picture text", "[[Number(e.getAttribute('x')), Number(e.getAttribute('y')) - 22], e.textContent]")
    for one, other in links_of(text):
        for leg, ahead in (one, other), (turned(other), turned(one)):
            end = along(sections[leg[:-1]], 1 if leg[-1] == "+" else 0)
            words = [words for place, words in told if near(place, end)]
            expect(len(words) == 1 and (ahead in words[0].split() or "\u2026" in words[0]), f"{leg} leads to {ahead}", words)


def check_links(look, text, rows):
    """Each link is drawn from the one section to the other, as locked where a lock leads over it."""
    seen = json.loads(look.say(SEEN))
    begin = lambda leg: along(seen["sections"][leg[:-1]], 0 if leg[-1] == "+" else 1)
    leads = lambda one, other: other[:-1] in rows and rows[other[:-1]]["sign"] == other[-1] and rows[other[:-1]]["behind"] == one
    drawn = [(kind, ends_of(path)) for kind, path in seen["links"]]
    for one, other in links_of(text):
        ends = begin(turned(one)), begin(other)
        band = [sum(top <= y + 1 for top in seen["tops"]) for _, y in ends]
        if near(*ends) or band[0] != band[1]:
            continue  # they stand end to end, perhaps one at the end of a band and the other at the beginning of the next
        kind = "rail" if leads(one, other) or leads(turned(other), turned(one)) else "free"
        whole = [points for found, points in drawn if found == kind and all(any(near(end, point) for point in points) for end in ends)]
        expect(whole, f"the link {one} {other} is drawn as {kind}", ends)


def ends_of(path):
    """Both ends of each piece of a path, which may be curved."""
    numbers = [list(map(float, re.findall(r"-?[\d.]+", piece))) for piece in path.split("M")[1:]]
    return [end for piece in numbers for end in (tuple(piece[:2]), tuple(piece[-2:]))]


def check_row(row, metres, train, legs):
    number, _, stands, holds, further, *_ = row
    (first, start), (end, to), (held, until) = (spot(metres, train, legs, train["rear"], False), spot(metres, train, legs, train["front"]),
                                                 spot(metres, train, legs, train["to"]))
    words = f"{first} {start}\u2013{to}\u00a0m" if first == end else f"{first} {start}\u00a0m \u2013 {end} {to}\u00a0m"
    expect(stands == words, f"where train {number} may stand", (stands, words))
    words = "nothing" if train["start"] == train["to"] else f"{held} {until}\u00a0m ({train['to']}\u00a0m)"
    expect(holds == words, f"what train {number} holds", (holds, words))
    words = "no farther" if train["next"] is None else "what it holds"
    if train["next"] is not None and train["next"] > train["to"]:
        section, offset = spot(metres, train, legs, train["next"])
        words = f"{section} {offset}\u00a0m ({train['next']}\u00a0m)"
    expect(further == words, f"what train {number} would be granted", (further, words))


def check_train(seen, number, metres, train, legs):
    drawn = seen["trains"][number]

    def stands_at(what, places, distance, ends=True):
        section, offset = spot(metres, train, legs, distance, ends)
        want = along(seen["sections"][section], offset / metres[section])
        expect(any(near(place, want) for place in places), f"the {what} of train {number} at {section} {offset}", (places, want))

    def begins(path):
        return [piece[0] for piece in pieces(path)]  # one in each band

    stands_at("front", [point(drawn["front"])], train["front"])
    if drawn["body"]:
        stands_at("rear", begins(drawn["body"]), train["rear"], False)
    expect((drawn.get("end") is not None) == (train["start"] < train["to"]), f"train {number} has an end where it holds something")
    if drawn.get("end"):
        stands_at("end", [point(drawn["end"])], train["to"])
        stands_at("beginning", begins(drawn["hold"]), train["start"], False)
    ahead = train["next"] is not None and train["next"] > max(train["to"], train["front"])
    expect((drawn["goal"] is not None) == ahead, f"train {number} has a goal where it would be granted more")
    if ahead:
        x, y = map(float, re.match(r"M(\S+) ([\d.]+)l", drawn["goal"]).groups())
        stands_at("goal", [(x, y + 5)], train["next"])
    expect(drawn["colour"] == seen["dots"][number], f"train {number} has the colour of its row", drawn["colour"])


def check_overlaps(seen, metres, trains):
    expected, hatched = overlaps_of(metres, trains), {}
    for title, path in seen["hatched"]:
        words, section, start, to = re.fullmatch(r"(.*): (\w+) (\d+) to (\d+) m", title).groups()
        hatched.setdefault(words, set()).update((section, metre) for metre in range(int(start), int(to)))
        xs = [float(x) for x in re.findall(r"[MH](-?[\d.]+)", path)]
        want = sorted(along(seen["sections"][section], int(at) / metres[section])[0] for at in (start, to))
        expect(near((min(xs), max(xs)), want), "a hatch stands on its metres", (title, xs, want))
    expect(hatched == expected, "the metres that trains share are hatched", (sorted(hatched), sorted(expected)))
    for words in list(expected)[:8]:
        expect(words[0].upper() + words[1:] in seen["told"], "trains on the same metres are told", (words, seen["told"]))
    expect(bool(seen["told"]) == bool(expected), "nothing else is told", seen["told"])


def check_texts(look, width):
    small = min(look.all("svg text, td, th, p, span, button, a, li, h1, h2, summary", "parseFloat(getComputedStyle(e).fontSize)"))
    expect(small >= 11, "texts of 11 pixels and more", small)
    scaled = look.all("#view svg:not(.legend svg)", "Math.abs(e.getBoundingClientRect().width - e.viewBox.baseVal.width)")
    expect(max(scaled, default=0) < 1, "drawings are not scaled", max(scaled, default=0))
    wide = look.say("document.documentElement.scrollWidth")
    expect(wide <= width, "nothing scrolls sideways", wide)


def check_apart(look, selector):
    """Texts that stand on each other are wrong."""
    boxes = look.all(selector, "(b => [b.left, b.right, b.top, b.bottom, e.textContent])(e.getBoundingClientRect())")
    boxes.sort()
    for at, (left, right, top, bottom, words) in enumerate(boxes):
        for other in itertools.takewhile(lambda box: box[0] < right - 1.5, boxes[at + 1:]):
            expect(min(bottom, other[3]) - max(top, other[2]) <= 4, "texts do not overlap", (words, other[4]))


# ---- sheets


def certificates_of(text):
    """The certificates of a text that are in form."""
    pairs = lambda words: [tuple(map(int, word.split(":"))) for word in words.split()]
    for kind, runs, end, steps, loss in re.findall(r"^(speed|grade) \d+ (.*) end (\d+)\nsteps (.*) loss (-?\d+)$", text, re.M):
        yield {"kind": kind, "runs": pairs(runs), "end": int(end), "steps": pairs(steps), "loss": int(loss)}


DRAWN = """JSON.stringify(Array.from(document.querySelectorAll('.sheet > svg'), svg => ({
  ticks: Array.from(svg.querySelectorAll('text.metre'), t => [Number(t.getAttribute('x')), t.textContent]),
  zeros: Array.from(svg.querySelectorAll('.zero'), p => p.getAttribute('d')),
  levels: Array.from(svg.querySelectorAll('text.right:not(.metre)'), t => [Number(t.getAttribute('y')), t.textContent]),
  paths: Array.from(svg.querySelectorAll('[data-of]'), p => [p.dataset.of, p.className.baseVal, p.getAttribute('d')]),
})))"""


class Band:
    """The axes of one drawing: pixels to metres, and of each of its charts pixels to values."""

    def __init__(self, drawn):
        metre = lambda words: float(words.split()[0].replace("\u2212", "-")) * (1000 if words.endswith("km") else 1)
        (x0, first), (x1, last) = (drawn["ticks"][0], drawn["ticks"][-1]) if len(drawn["ticks"]) > 1 else (None, None)
        self.scale = (metre(last) - metre(first)) / (x1 - x0)
        self.metre = lambda x: metre(first) + (x - x0) * self.scale
        self.paths = drawn["paths"]
        names = sorted({name for name, *_ in drawn["paths"]})
        values = [(y - 4, float(words.replace("\u2212", "-"))) for y, words in drawn["levels"] if re.fullmatch(r"[\u2212\d]+", words)]
        zeros = [float(path.split()[1].split("H")[0]) for path in drawn["zeros"]]
        self.charts = {}
        for name, zero in zip(names, zeros):
            below = min([other for other in zeros if other > zero], default=1e9)
            above = max([other for other in zeros if other < zero], default=-1e9)
            levels = [(y, value) for y, value in values if value and (zero < y < (zero + below) / 2 or (zero + above) / 2 < y < zero)]
            y, value = max(levels, key=lambda level: abs(level[1]), default=(zero - 1, 1))
            self.charts[name] = (zero, value / (zero - y))

    def value(self, name, y):
        zero, scale = self.charts[name]
        return (zero - y) * scale


def stairs_of(bands, name, look):
    """A stair that is drawn in bands, as steps of metres and values, and the most that a pixel stands for."""
    steps, coarse = [], 0
    for band in bands:
        for path in [path for of, class_name, path in band.paths if of == name and class_name == look]:
            x, y = map(float, re.match(r"M(\S+) ([-\d.]+)H", path).groups())
            corners = [(x, y)]
            for what, number in re.findall(r"([HV])([-\d.]+)", path):
                if what == "V":
                    y = float(number)
                    corners.append((x, y))
                else:
                    x = float(number)
            coarse = max(coarse, abs(band.scale), abs(band.charts[name][1]))
            steps += [(band.metre(x), band.value(name, y)) for x, y in corners]
    # a band begins with the value that the one before ends with
    return [step for at, step in enumerate(steps) if at == 0 or abs(step[1] - steps[at - 1][1]) > 0.3], coarse


def area_of(bands, name, look):
    """What shades stand for: metres times values."""
    area = 0
    for band in bands:
        for path in [path for of, class_name, path in band.paths if of == name and class_name == look]:
            points, x, y = [], 0, 0
            for what, words in re.findall(r"([MLHV])([-\d. ]+)", path):
                numbers = list(map(float, words.split()))
                x, y = (numbers[0], y) if what == "H" else (x, numbers[0]) if what == "V" else numbers
                points.append((band.metre(x), band.value(name, y)))
            area += abs(sum(a[0] * b[1] - b[0] * a[1] for a, b in zip(points, points[1:] + points[:1]))) / 2
    return area


def check_sheets(look, text):
    """Each stair has a corner at each step's metre and value, and what is shaded is what is told to be lost."""
    bands, told = [Band(drawn) for drawn in json.loads(look.say(DRAWN))], list(certificates_of(text))
    names = list(dict.fromkeys(name for band in bands for name, *_ in band.paths))
    expect(len(names) == len(told), "a chart for each certificate", (len(names), len(told)))
    for name, certificate in zip(names, told):
        for what, look_of in (("steps", "steps"), ("runs", "track")):
            there = [band for band in bands if name in band.charts]
            drawn, _ = stairs_of(there, name, look_of)
            coarse = max(abs(band.scale) for band in there)
            expect(len(drawn) == len(certificate[what]), f"the {what} of {name}", (drawn, certificate[what]))
            for (metre, value), (start, level) in zip(drawn, certificate[what]):
                expect(abs(metre - start) <= coarse + 0.5 and abs(value - level) <= 0.4, f"the {what} of {name}", ((metre, value), (start, level)))
        lost = area_of(there, name, "lost")
        expect(abs(lost - certificate["loss"]) <= 0.04 * certificate["loss"], f"what is shaded in {name}", (lost, certificate["loss"]))


TABLES = """Array.from(document.querySelectorAll('.steps-table tbody'), body => Array.from(body.rows,
  row => Array.from(row.cells, cell => cell.textContent.replace(/[\\u202f+]/g, '').replace('\\u2212', '-'))))"""


def check_tables(tables, text):
    """The tables of steps have each with its metres and value, and tell what is lost."""
    told = list(certificates_of(text))
    expect(len(tables) == len(told), "a table for each certificate", len(tables))
    for table, certificate in zip(tables, told):
        stops = [start for start, _ in certificate["steps"][1:]] + [certificate["end"]]
        words = [[str(start), str(stop), str(value)] for (start, value), stop in zip(certificate["steps"], stops)]
        expect([row[:3] for row in table] == words, "the table of steps", (table[:2], words[:2]))
        expect(sum(int(row[3]) for row in table) == certificate["loss"], "what its steps lose", (certificate["loss"], table[:3]))
