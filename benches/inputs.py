"""The inputs of the benchmarks: the same on every machine, made from a fixed seed."""
import random

LONGEST_LINE = 4_096  # bytes
SHORT_LINES = (b"speed 2 0:160 100:120 150:160 end 300\n", b"grade 1 0:10 100:-3 end 200\n")


def short_lines(count):
    """Lines of two and three runs."""
    return b"".join(SHORT_LINES[number % len(SHORT_LINES)] for number in range(count))


def longest_lines(count, seed=1):
    """Lines of as many runs as they hold, of 10 m each, whose speeds are thrown at random."""
    chance = random.Random(seed)
    return b"".join(longest_line(chance) for _ in range(count))


def longest_line(chance):
    words, length = [], len("speed 31 end 99999\n")
    while length + len(word := f"{10 * len(words)}:{5 * chance.randrange(1, 121)} ") <= LONGEST_LINE:
        words.append(word)
        length += len(word)
    return f"speed 31 {''.join(words)}end {10 * len(words)}\n".encode()


def track_of(lines, sections, metres, chance, runs):
    """So many lines that are not joined, line i of sections Si_0, Si_1 .. with group 5/i at its beginning and route Ri over all of it."""
    tables = ["format = 2"]
    for line in range(1, lines + 1):
        for place in range(sections):
            speeds = ", ".join(f"[{start}, {5 * chance.randrange(8, 33)}]" for start in runs)
            grades = ", ".join(f"[{start}, {chance.randrange(-20, 21)}]" for start in runs)
            tables.append(f'[[section]]\nname = "S{line}_{place}"\nlength = {metres}\nspeeds = [{speeds}]\ngrades = [{grades}]')
        tables += [f'[[link]]\nfrom = "S{line}_{place}+"\nto = "S{line}_{place + 1}+"' for place in range(sections - 1)]
        tables.append(f'[[group]]\ncountry = 5\nnumber = {line}\nsection = "S{line}_0"\noffset = 0\nnominal = "+"')
    return tables


TURN = 5  # lines that a train says before the next one of its connection


def routes_of(lines, sections, most=30):
    """Routes R1_0, R1_1 .. of some legs each, one behind the other along the lines."""
    tables, names = [], []
    for line in range(1, lines + 1):
        for first in range(0, sections, most):
            legs = ", ".join(f'"S{line}_{place}+"' for place in range(first, min(first + most, sections)))
            before = f'after = "S{line}_{first - 1}+"\n' if first else ""
            tables.append(f'[[route]]\nname = "R{line}_{first // most}"\n{before}legs = [{legs}]')
            names.append(f"R{line}_{first // most}")
    return tables, names


def ten_trains(reports, seed=2):
    """A track of ten lines, and a session in which each of its ten trains reports in turn, and asks behind every fourth report."""
    chance = random.Random(seed)
    routes, names = routes_of(10, 5)
    track = "\n".join(track_of(10, 5, 1_000, chance, (0, 300, 700)) + routes) + "\n"
    lines = [f"lock {name}" for name in names]
    for count in range(reports):
        train, turn = count % 10 + 1, count // 10
        lines.append(f"report {train} 5/{train} nominal {300 + turn} 5 5 200 {turn}")
        if turn % 4 == 3:
            lines.append(f"ask {train}")
    return track, "".join(f"{line}\n" for line in lines).encode()


def forty_trains(reports, seed=5):
    """A track of four lines, and a session in which the ten trains of each, one behind the other, report in turn."""
    chance = random.Random(seed)
    routes, names = routes_of(4, 5)
    track = "\n".join(track_of(4, 5, 2_000, chance, (0, 700)) + routes) + "\n"
    lines = [f"lock {name}" for name in names]
    for count in range(reports):
        train, turn = count % 40, count // 40
        line, place = train % 4 + 1, train // 4
        lines.append(f"report {train + 1} 5/{line} nominal {9_500 - 900 * place + turn} 5 5 200 {turn}")
    return track, "".join(f"{line}\n" for line in lines).encode()


def messages(replies, count=10_000):
    """So many messages of those among the replies of `rbc run`, which come again and again."""
    lines = [line for line in replies.splitlines(True) if line.startswith(b"message ")]
    return b"".join((lines * (count // len(lines) + 1))[:count])


def far_asks(asks, sections=1_200, metres=60, seed=3):
    """A track of one line of many short sections, and a session in which its train reports a metre further each time, and asks."""
    chance = random.Random(seed)
    routes, names = routes_of(1, sections)
    track = "\n".join(track_of(1, sections, metres, chance, (0,)) + routes) + "\n"
    lines = [f"lock {name}" for name in names]
    for count in range(asks):
        lines += [f"report 1 5/1 nominal {300 + count} 5 5 200 {count}", "ask 1"]
    return track, "".join(f"{line}\n" for line in lines).encode()


def trains_of_connections(connections, lines, trains=1):
    """A track with a line for each train, and what each connection sends, so many lines: its trains run on their lines, and each in turn
    reports four times and asks."""
    chance = random.Random(4)
    routes, names = routes_of(connections * trains, 1)
    track = "\n".join(track_of(connections * trains, 1, 5_000, chance, (0, 2_000)) + routes) + "\n"
    texts = []
    for first in range(1, connections * trains + 1, trains):
        said = [lines_of_train(train, names[train - 1], lines // trains) for train in range(first, first + trains)]
        turns = [line for at in range(0, lines // trains, TURN) for all_lines in said for line in all_lines[at:at + TURN]]
        texts.append("".join(f"{line}\n" for line in turns).encode())
    return track, texts


def lines_of_train(train, route, count):
    lines = [f"lock {route}"]
    for number in range(count - 1):
        if number % TURN == TURN - 1:
            lines.append(f"ask {train}")
        else:
            lines.append(f"report {train} 5/{train} nominal {300 + number * 4_000 // count} 5 5 200 {number}")
    return lines
