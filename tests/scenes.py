"""What `rbc show` writes, read a second time: a track and scenes as docs/formats.md has their lines, with what a train would be
granted next by docs/rules.md. What was read is printed again, and shares nothing with the program."""
import re
import tomllib
from dataclasses import dataclass, field

FARTHEST = {1: 32_000, 2: 80_000}
IN_METRES = 32_000  # beyond it a message counts in tens
LEGS_A_LINE = 64
NAME = r"\w{1,16}"
LEG = rf"{NAME}[+-]"
NUMBER = r"(?:0|[1-9]\d*)"
PLACE = rf"(?:{NUMBER}|-[1-9]\d*)"
RUNS = rf"(?: {NUMBER}:{PLACE})+"
LEGS = rf"(?: {LEG})+"
GROUP = rf"{NUMBER}/{NUMBER}"
OBSTACLE = rf"NoLink {LEG}|NotLocked {NAME}|Own|Occupied {NUMBER}|Held {NUMBER}|Limit"


class Unread(Exception):
    """A line that is none of those that may stand there."""


def words_of(line, form):
    """What stands in the parentheses of a form, which the line has to have as a whole."""
    found = re.fullmatch(form, line, re.A)
    if not found:
        raise Unread(f"{line!r} has not the form {form}")
    return found.groups()


def opposite(leg):
    return leg[:-1] + {"+": "-", "-": "+"}[leg[-1]]


# ---- tracks


@dataclass
class Track:
    """Sections by name, with their metres, speeds and gradients, each a list of starts and values; and the rest as words."""

    head: tuple
    sections: dict = field(default_factory=dict)
    links: list = field(default_factory=list)
    groups: list = field(default_factory=list)
    routes: dict = field(default_factory=dict)

    def metres(self, leg):
        return self.sections[leg[:-1]][0]

    def farthest(self):
        return FARTHEST[self.head[0]]

    def lines(self):
        lines = ["track {} {} {}".format(*self.head)]
        for name, (metres, speeds, grades) in self.sections.items():
            told = (" ".join(f"{start}:{value}" for start, value in runs) for runs in (speeds, grades))
            lines += [f"section {name} {metres}", f"speeds {name} {next(told)}", f"grades {name} {next(told)}"]
        lines += [f"link {a} {b}" for a, b in self.links]
        lines += [f"group {name} {leg} {offset}" for name, leg, offset in self.groups]
        lines += [f"route {name} {after} {' '.join(legs)}" for name, (after, legs) in self.routes.items()]
        return lines + ["done"]


def track_in_file(path):
    """The track of a file."""
    with open(path, "rb") as file:
        told = tomllib.load(file)
    track = Track((told["format"], told.get("speed_steps", 31), told.get("grade_steps", 31)))
    for section in told["section"]:
        track.sections[section["name"]] = (section["length"], joined(section["speeds"]), joined(section["grades"]))
    track.links = [(link["from"], link["to"]) for link in told.get("link", [])]
    for group in told.get("group", []):
        track.groups.append((f"{group['country']}/{group['number']}", group["section"] + group["nominal"], group["offset"]))
    for route in told.get("route", []):
        track.routes[route["name"]] = (route.get("after", "-"), route["legs"])
    return track


def joined(runs):
    """Runs, of which neighbours have different values."""
    return [(start, value) for at, (start, value) in enumerate(runs) if at == 0 or runs[at - 1][1] != value]


def track_in(lines):
    """The track that lines tell."""
    lines = iter(lines)
    track = Track(tuple(map(int, words_of(next(lines), rf"track ([12]) ({NUMBER}) ({NUMBER})"))))
    line = next(lines)
    while line.startswith("section "):
        name, metres = words_of(line, rf"section ({NAME}) ({NUMBER})")
        speeds, grades = (words_of(next(lines), rf"{word} {name}({RUNS})")[0] for word in ("speeds", "grades"))
        track.sections[name] = (int(metres), runs_in(speeds), runs_in(grades))
        line = next(lines)
    while line.startswith("link "):
        track.links.append(words_of(line, rf"link ({LEG}) ({LEG})"))
        line = next(lines)
    while line.startswith("group "):
        name, leg, offset = words_of(line, rf"group ({GROUP}) ({LEG}) ({NUMBER})")
        track.groups.append((name, leg, int(offset)))
        line = next(lines)
    while line.startswith("route "):
        name, after, legs = words_of(line, rf"route ({NAME}) ({LEG}|-)({LEGS})")
        track.routes[name] = (after, legs.split())
        line = next(lines)
    words_of(line, "done")
    return track


def runs_in(words):
    return [tuple(map(int, word.split(":"))) for word in words.split()]


# ---- scenes


@dataclass
class Train:
    """The words of its report, and its line; places are metres from the start of this."""

    report: str
    line: list = field(default_factory=list)
    origin: int = 0
    extent: tuple = (0, 0)
    authority: tuple = (0, 0)

    def number(self):
        return self.report.split()[0]


@dataclass
class Scene:
    """The version; of each locked section its leg, route and leg before; and the trains in order of arrival."""

    version: int
    locks: dict = field(default_factory=dict)
    trains: list = field(default_factory=list)

    def lines(self, track):
        lines = [f"scene {self.version}"]
        lines += ["locked {} {} {}".format(*self.locks[name]) for name in track.sections if name in self.locks]
        for train in self.trains:
            number, origin = train.number(), train.origin
            pieces = [train.line[at:at + LEGS_A_LINE] for at in range(0, len(train.line), LEGS_A_LINE)]
            lines += [f"train {train.report}", f"line {number} {origin} {' '.join(pieces[0])}"]
            lines += [f"along {number} {' '.join(piece)}" for piece in pieces[1:]]
            for word, places in ("stands", train.extent), ("holds", train.authority):
                lines.append(f"{word} {number} {places[0] - origin} {places[1] - origin}")
            end, reach, obstacle = prospect(track, self, train)
            lines.append(f"next {number} {'-' if end is None else end - origin} {reach - origin} {obstacle}")
        return lines + ["done"]


REPORT = rf"{NUMBER} {GROUP} (?:nominal|reverse) {NUMBER} {NUMBER} {NUMBER} {NUMBER} {NUMBER}"


def scene_in(lines):
    """The scene that lines tell; what would be granted next is passed over."""
    lines = iter(lines)
    scene = Scene(int(words_of(next(lines), rf"scene ({NUMBER})")[0]))
    line = next(lines)
    while line.startswith("locked "):
        lock = words_of(line, rf"locked ({LEG}) ({NAME}) ({LEG}|-)")
        scene.locks[lock[0][:-1]] = lock
        line = next(lines)
    while line.startswith("train "):
        train = Train(words_of(line, rf"train ({REPORT})")[0])
        number = train.number()
        origin, legs = words_of(next(lines), rf"line {number} ({NUMBER})({LEGS})")
        train.origin, train.line = int(origin), legs.split()
        while (line := next(lines)).startswith("along "):
            train.line += words_of(line, rf"along {number}({LEGS})")[0].split()
        train.extent = places_in(line, "stands", train)
        train.authority = places_in(next(lines), "holds", train)
        words_of(next(lines), rf"next {number} (?:{NUMBER}|-) {PLACE} (?:{OBSTACLE})")
        scene.trains.append(train)
        line = next(lines)
    words_of(line, "done")
    return scene


def places_in(line, word, train):
    found = words_of(line, rf"{word} {train.number()} ({PLACE}) ({PLACE})")
    return tuple(train.origin + int(place) for place in found)


# ---- what a train would be granted next


def prospect(track, scene, train):
    """The greatest end that a message can give, if there is one; where the obstacle stands; and its words."""
    reach, obstacle = reach_of(track, scene, train)
    distance = reach - train.origin
    end = train.origin + (distance if distance <= IN_METRES else distance - distance % 10)
    is_granted = end > train.origin and end > train.extent[1] and end >= train.authority[1]
    return (end if is_granted else None), reach, obstacle


def way_of(scene, train):
    """The line as far as the locks lead, and whether they lead back onto it."""
    behind = {before: leg for leg, _, before in scene.locks.values()}
    way = list(train.line)
    while (leg := behind.get(way[-1])) and leg[:-1] not in [other[:-1] for other in way]:
        way.append(leg)
    return way, leg is not None


def reach_of(track, scene, train):
    """The first place with an obstacle, and its words."""
    start, limit = min(train.authority[0], train.extent[1]), train.origin + track.farthest()
    way, comes_back = way_of(scene, train)
    place, before = 0, None
    for leg in way:
        first, end = max(place, start), place + track.metres(leg)
        if first < end:
            lock = scene.locks.get(leg[:-1])
            if not lock or lock[0] != leg or before and lock[2] != before:
                return first, f"NotLocked {leg[:-1]}"
            met = [(max(first, a), rank, words) for rank, words, a, b in met_on(track, scene, train, leg, place) if max(first, a) < b]
            met += [(limit, 2, "Limit")] if first <= limit < end else []
            if met:
                return min(met, key=lambda found: found[:2])[::2]  # of several there the first in order of arrival
        place, before = end, leg
    return place, "Own" if comes_back else f"NoLink {way[-1]}"


def met_on(track, scene, train, leg, place):
    """What the other trains stand on and hold of a leg that begins at the place: the places from which and up to which."""
    for other in scene.trains:
        if other is not train:
            for rank, word, (a, b) in (0, "Occupied", other.extent), (1, "Held", other.authority):
                begin = 0
                for its_leg in other.line:
                    metres = track.metres(its_leg)
                    if its_leg[:-1] == leg[:-1]:
                        low, high = (min(max(at - begin, 0), metres) for at in (a, b))
                        if its_leg != leg:
                            low, high = metres - high, metres - low
                        yield rank, f"{word} {other.number()}", place + low, place + high
                    begin += metres


# ---- what a train has of its report


def report_fault(track, train):
    """What is wrong with a train's line and places, by the words of its report, if anything is."""
    _, group, way, *numbers = train.report.split()
    distance, over, under, length, _ = map(int, numbers)
    leg, offset = next((leg, offset) for name, leg, offset in track.groups if name == group)
    leg = leg if way == "nominal" else opposite(leg)
    if leg not in train.line:
        return f"the line has no leg {leg}"
    before = sum(map(track.metres, train.line[:train.line.index(leg)]))
    front = train.origin + distance + under
    wrong = {
        "its group": train.origin != before + (offset if leg[-1] == "+" else track.metres(leg) - offset),
        "where it stands": train.extent != (front - under - over - length, front),
        "what it holds": train.authority[0] >= train.authority[1] and train.authority != (front, front) or train.authority[0] < train.extent[0],
        "its line": not is_line(track, train.line, max(front, train.authority[1])),
    }
    return next((f"train {train.number()}: {name}" for name, is_so in wrong.items() if is_so), None)


def is_line(track, line, end):
    """Whether links lead from leg to leg, no section comes twice, and the line has so many metres."""
    links = {*track.links, *((opposite(b), opposite(a)) for a, b in track.links)}
    names = {leg[:-1] for leg in line}
    return all(pair in links for pair in zip(line, line[1:])) and len(names) == len(line) and end <= sum(map(track.metres, line))


# ---- what a line that was entered makes of a scene


def order_behind(scene, words):
    """The numbers of the trains, in order of arrival."""
    number, trains = words[1].lstrip("0"), [train.number() for train in scene.trains]
    if words[0] == "report" and number not in trains:
        return [*trains, number]
    return [train for train in trains if words[0] != "leave" or train != number]


def locks_behind(track, scene, words):
    """Of each locked section its leg, route and leg before."""
    if words[0] == "lock":
        after, legs = track.routes[words[1]]
        return {**scene.locks, **{leg[:-1]: (leg, words[1], before) for before, leg in zip([after, *legs], legs)}}
    return {name: lock for name, lock in scene.locks.items() if words[0] != "free" or name != words[1]}


# ---- a session with its scenes


@dataclass
class Told:
    """A line with its number, the lines of its reply, and those of the scene behind it, if there is one."""

    number: int
    text: str
    reply: list
    scene: list


class Shown:
    """What `rbc show --each` wrote, as text in which a character is a byte."""

    def __init__(self, text):
        self.lines = text.split("\n")
        if self.lines.pop() != "":
            raise Unread("the last line has no line feed")
        self.track = self.block("track")
        self.first = self.block("scene")
        self.told = []
        while self.lines:
            number, said = words_of(self.lines.pop(0), rf"(?s:request ({NUMBER}) (.*))")
            first = self.lines[0].split(" ")[0]
            reply = self.block(first) if first in ("granted", "scene") else [self.lines.pop(0)]
            scene = self.block("scene") if self.lines and self.lines[0].startswith("scene ") else []
            self.told.append(Told(int(number), said, reply, scene))

    def block(self, word):
        """The next lines, up to `done`."""
        end = self.lines.index("done") + 1 if "done" in self.lines else 0
        block, self.lines = self.lines[:end], self.lines[end:]
        if not block or block[0].split(" ")[0] != word:
            raise Unread(f"no block that begins with {word}")
        return block

    def replies(self):
        """What is left without the track, the requests and the scenes."""
        return text_of(line for told in self.told for line in told.reply)

    def last(self):
        """The scene at the end."""
        return [self.first, *(told.scene for told in self.told if told.scene)][-1]


def text_of(lines):
    return "".join(f"{line}\n" for line in lines)


def numbered(said):
    """The lines of an input that have a reply, each with its number."""
    lines = said.removesuffix("\n").split("\n") if said else []
    lines = [(number, line.removesuffix("\r")) for number, line in enumerate(lines, 1)]
    return [(number, line) for number, line in lines if line.strip(" ") and not line.strip(" ").startswith("#")]


def fault_of(shown, said):
    """What is wrong with what was written of an input, if anything is."""
    track = track_in(shown.track)
    if track.lines() != shown.track:
        return "the track, printed again, has other lines"
    if [(told.number, told.text) for told in shown.told] != numbered(said):
        return "the requests are not the lines that were said"
    if shown.first != ["scene 0", "done"]:
        return "it does not begin with an empty scene"
    before = shown.first
    for told in shown.told:
        fault = fault_behind(track, before, told)
        if fault:
            return f"line {told.number}: {fault}"
        before = told.scene or before
    return None


def fault_behind(track, before, told):
    """What is wrong with a line's reply and scene behind the scene before it."""
    words = told.reply[0].split(" ")
    if words[0] in ("granted", "blocked") and coming_reply(before, words[1]) != [words[0], *words[4 if words[0] == "granted" else 3:]]:
        return f"it is told {told.reply[0]} behind {coming_reply(before, words[1])}"
    if words[0] == "scene" and told.reply != before:
        return "it is shown another scene than the one before"
    if words[0] == "state" and told.reply != [state_of(before)]:
        return f"it is told {told.reply[0]} of {state_of(before)}"
    if words[0] not in ("ok", "granted"):
        return "a scene stands where nothing was entered" if told.scene else None
    scene, old, said = scene_in(told.scene), scene_in(before), told.text.split()
    wrong = {
        "the scene has another version than the reply": scene.version != int(words[1 if words[0] == "ok" else 2]),
        "its trains have another order": [train.number() for train in scene.trains] != order_behind(old, said),
        "its locks are others": scene.locks != locks_behind(track, old, said),
        "its train does not hold what it is granted": words[0] == "granted" and "holds {1} {3} {4}".format(*words) not in told.scene,
        "no train has the report": said[0] == "report" and report_of(said) not in [train.report for train in scene.trains],
        f"printed again it is {scene.lines(track)}, not {told.scene}": scene.lines(track) != told.scene,
    }
    faults = [name for name, is_so in wrong.items() if is_so] + [report_fault(track, train) for train in scene.trains]
    return next(filter(None, faults), None)


def state_of(scene):
    """How a `state` is answered, by the lines of a scene."""
    firsts = [line.split(" ")[0] for line in scene]
    return f"state {scene[0].split(' ')[1]} {firsts.count('train')} {firsts.count('locked')}"


def report_of(said):
    """The words of a report without leading zeros."""
    return " ".join(re.sub(r"\b0+(?=\d)", "", word) for word in said[1:])


def coming_reply(scene, number):
    """How an `ask` of a train is answered, by the lines of a scene: the first word, what stands at the end, and the obstacle."""
    end, place, *obstacle = next(line.split(" ")[2:] for line in scene if line.startswith(f"next {number} "))
    return ["blocked", place, *obstacle] if end == "-" else ["granted", end, *obstacle]
