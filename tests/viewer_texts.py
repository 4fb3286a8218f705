"""Texts for tests/viewer, made by rules of their own: tracks of odd shapes with a scene, 400 sections with 40 trains, and
1,000 certificates. Each is the same at every call."""
import random


def scene_text(sections, links, rows=(), trains=(), speed_steps=12, grade_steps=8):
    """The lines of a track and of a scene. Sections are (name, metres), links and rows pairs of legs, and trains
    (legs, origin, rear, front, from, to, next), in metres from the group, `next` being None where the train is blocked."""
    lines = [f"track 1 {speed_steps} {grade_steps}"]
    for name, metres in sections:
        lines += [f"section {name} {metres}", f"speeds {name} 0:100", f"grades {name} 0:0"]
    lines += [f"link {one} {two}" for one, two in links]
    lines += [f"group 1/{number} {name}+ {metres // 2}" for number, (name, metres) in enumerate(sections)]
    lines += ["done", "scene 7"] + [f"locked {leg} route {before}" for leg, before in rows]
    for number, (legs, origin, rear, front, start, end, ahead) in enumerate(trains, 1001):
        lines += [f"train {number} 1/1 nominal {front} 0 0 {front - rear} 36000", f"line {number} {origin} {' '.join(legs)}",
                  f"stands {number} {rear} {front}", f"holds {number} {start} {end}",
                  f"next {number} {'-' if ahead is None else ahead} {end if ahead is None else ahead + 9} NoLink {legs[-1]}"]
    return "\n".join(lines + ["done"]) + "\n"


def chained(legs):
    """Rows that lock these legs one behind the other."""
    return list(zip(legs, ["-", *legs]))


def circle():
    names = [f"C{number}" for number in range(8)]
    links = [(f"{name}+", f"{names[(at + 1) % 8]}+") for at, name in enumerate(names)]
    legs = [f"{name}+" for name in names[:6]]
    return scene_text([(name, 800) for name in names], links, chained(legs), [(legs[1:4], 0, 100, 300, 300, 1900, None)])


def balloon():
    """A loop at the end of a line, on which a train comes back the way it went."""
    links = [("A+", "L+"), ("A+", "L-")]
    return scene_text([("A", 500), ("L", 800)], links, chained(["A+", "L+"]), [(["A+", "L+"], 100, 0, 150, 150, 900, 1200)])


def turned():
    """A section whose metres fall where those of its neighbours rise."""
    legs = ["A+", "B-", "C+"]
    return scene_text([("A", 900), ("B", 700), ("C", 800)], list(zip(legs, legs[1:])), chained(legs), [(legs, 0, 700, 1000, 1000, 1900, 2300)])


def apart():
    """Three sections that nothing links."""
    sections = [("Alone_1", 500), ("Alone_2", 25), ("Alone_3", 100000)]
    return scene_text(sections, [], [("Alone_3-", "-")], [(["Alone_3-"], 0, 20000, 20400, 20400, 52000, 100000)])


def facing():
    """Two trains that face each other and hold the same metres, as no centre grants them."""
    trains = [(["A+", "B+"], 0, 0, 200, 200, 1500, None), (["B-", "A-"], 0, 100, 300, 300, 900, None)]
    return scene_text([("A", 1000), ("B", 1000)], [("A+", "B+")], chained(["A+", "B+"]), trains)


def ladder(tracks=7):
    sections = [("IN", 1200)] + [(f"L{at}", 60) for at in range(1, tracks)] + [(f"P{at}", 400 + 20 * at) for at in range(1, tracks + 1)]
    sections += [(f"R{at}", 60) for at in range(1, tracks)] + [("OUT", 2400)]
    links = [("IN+", "L1+"), ("IN+", "P1+"), ("P1+", "OUT+"), ("R1+", "OUT+")]
    for at in range(1, tracks):
        links += [(f"L{at}+", f"P{at + 1}+"), (f"P{at + 1}+", f"R{at}+")]
    for at in range(1, tracks - 1):
        links += [(f"L{at}+", f"L{at + 1}+"), (f"R{at + 1}+", f"R{at}+")]
    legs = ["IN+", "L1+", "L2+", "P3+", "R2+", "R1+", "OUT+"]
    return scene_text(sections, links, chained(legs), [(legs[:4], 0, 900, 1100, 1100, 1600, None)])


def loops(count=12):
    """A long line with a passing loop behind each section."""
    sections, links = [], []
    for at in range(count):
        sections += [(f"M{at}", 2500), (f"A{at}", 700), (f"B{at}", 720)]
        links += [(f"M{at}+", f"A{at}+"), (f"M{at}+", f"B{at}+")]
        if at + 1 < count:
            links += [(f"A{at}+", f"M{at + 1}+"), (f"B{at}+", f"M{at + 1}+")]
    legs = ["M0+", "A0+", "M1+", "B1+", "M2+"]
    return scene_text(sections, links, chained(legs), [(legs[:4], 0, 500, 900, 900, 5600, None)])


def tangle():
    """Thirty sections with links wherever chance has them."""
    dice = random.Random(3)
    names = [f"T{number}" for number in range(30)]
    links = {(one + dice.choice("+-"), two + dice.choice("+-")) for one in names for two in dice.sample(names, 2) if one != two}
    return scene_text([(name, dice.randint(100, 900)) for name in names], sorted(links), [("T4-", "-")], [(["T4-"], 0, 10, 90, 90, 95, None)])


def grid(lines=10, columns=40):
    """Parallel lines with crossovers, and on each fourth part of a line a route with a train: 400 sections, 40 trains."""
    dice = random.Random(7)
    name = lambda line, column: f"{'ABCDEFGHIJ'[line]}{column + 1:02}"
    lengths = {name(line, column): dice.choice([240, 420, 600, 900, 1500]) for line in range(lines) for column in range(columns)}
    links, rows, trains = [], [], []
    for line in range(lines):
        for column in range(columns - 1):
            links.append((f"{name(line, column)}+", f"{name(line, column + 1)}+"))
            if column % 6 == 2 and line % 2 == 0 and line + 1 < lines:
                links.append((f"{name(line, column)}+", f"{name(line + 1, column + 1)}+"))
            if column % 6 == 5 and line % 2 == 1 and line + 1 < lines:
                links.append((f"{name(line + 1, column)}+", f"{name(line, column + 1)}+"))
        order = list(range(columns)) if line % 2 == 0 else list(range(columns - 1, -1, -1))
        legs = [name(line, column) + "+-"[line % 2] for column in order]
        for part in range(0, columns, columns // 4):
            route = legs[part:part + columns // 5]
            rows += chained(route)
            origin, size = dice.randint(0, lengths[route[0][:-1]] - 1), dice.randint(100, 400)
            rear = dice.randint(0, 1200) - origin
            end = sum(lengths[leg[:-1]] for leg in route) - origin
            held = dice.choice([rear + size, end, (rear + size + end) // 2])
            trains.append((route, origin, rear, rear + size, rear + size, held, end if held < end else None))
    return scene_text(list(lengths.items()), links, rows, trains)


def certificates(count=1000):
    """As many authorities' speeds and gradients, by turns, each with a profile that is good and what it loses, and the verdicts."""
    dice, lines, verdicts = random.Random(11), [], []
    for number in range(count):
        kind, values = (("speed", range(40, 205, 5)), ("grade", range(-25, 26)))[number % 2]
        starts = [0, *sorted(dice.sample(range(50, 8000, 25), dice.randint(3, 24)))]
        runs = [(start, dice.choice(values)) for start in starts]
        runs = [run for at, run in enumerate(runs) if at == 0 or run[1] != runs[at - 1][1]]
        end = 8000 + dice.randint(1, 400)
        steps, loss = lower(runs, end, dice.randint(1, 6))
        words = lambda pairs: " ".join(f"{start}:{value}" for start, value in pairs)
        lines += [f"{kind} 12 {words(runs)} end {end}", f"steps {words(steps)} loss {loss}", "prices 1 0", "done"]
        verdicts.append(f"certified {kind} {loss}")
    return "\n".join(lines) + "\n", "\n".join(verdicts) + "\n"


def lower(runs, end, size):
    """A profile below the runs, in which as many runs as told are one step, and what it loses."""
    parts = [runs[at:at + size] for at in range(0, len(runs), size)]
    steps = [(part[0][0], min(value for _, value in part)) for part in parts]
    stops = [start for start, _ in runs[1:]] + [end]
    loss = sum((stop - start) * (value - steps[at // size][1]) for at, ((start, value), stop) in enumerate(zip(runs, stops)))
    return [step for at, step in enumerate(steps) if at == 0 or step[1] != steps[at - 1][1]], loss
