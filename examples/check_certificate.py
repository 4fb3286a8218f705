#!/usr/bin/env python3
"""Checks the certificates in a text by what docs/formats.md says of them and nothing else.

    python3 examples/check_certificate.py < FILE

It prints a line for each certificate, and ends with status 1 if one was refused, with 4 where the text can't be read.
It is written to be read: no step of it is clever. It shares no line with the program."""

import sys

LONGEST_LINE, MOST_LINES, LONGEST_TRACK, MOST_STEPS = 65_536, 1_000_000, 100_000, 31
FARTHEST_END, FARTHEST_END_IN_TENS = 32_000, 80_000  # a message counts metres up to the first, and tens of metres up to the second
KINDS = {"speed": (5, 600, 5), "grade": (-254, 254, 1)}  # lowest value, highest value, multiples that a message has


class Refused(Exception):
    """Why a certificate is refused."""


def require(holds, reason="Shape"):
    if not holds:
        raise Refused(reason)


def number(word):
    require(1 <= len(word) <= 10 and all(c in "0123456789" for c in word))
    return int(word)


def rows(words, kind, end):
    """Runs or steps `S:V`: their starts rise from 0 and lie below the end."""
    lowest, highest, _ = KINDS[kind]
    result = []
    for word in words:
        start, colon, value = word.partition(":")
        minus = kind == "grade" and value.startswith("-")
        value = -number(value[1:]) if minus else number(value)
        require(colon and number(start) <= LONGEST_TRACK and lowest <= value <= highest)
        result.append((number(start), value))
    starts = [start for start, _ in result]
    require(starts and starts[0] == 0 and starts == sorted(set(starts)) and starts[-1] < end)
    return result


def value_at(rows, metre):
    return [value for start, value in rows if start <= metre][-1]


def judge(head, steps, table):
    """The verdict on one certificate, given as the words of its lines."""
    # The shape: the track, the profile, and a row of prices for each number of steps that can be of use.
    kind, multiple = head[0], KINDS[head[0]][2]
    require(len(head) >= 5 and head[-2] == "end" and steps is not None and len(steps) >= 4 and steps[-2] == "loss")
    limit, end, told = number(head[1]), number(head[-1]), number(steps[-1])
    unit = 1 if end <= FARTHEST_END else 10
    require(1 <= limit <= MOST_STEPS and 1 <= end <= FARTHEST_END_IN_TENS and end % unit == 0)
    runs, profile = rows(head[2:-2], kind, end), rows(steps[1:-2], kind, end)
    runs = [run for i, run in enumerate(runs) if i == 0 or run[1] != runs[i - 1][1]]
    require(len(profile) <= MOST_STEPS and all(start % unit == 0 and value % multiple == 0 for start, value in profile))
    down, up = [start // unit * unit for start, _ in runs], [-(-start // unit) * unit for start, _ in runs]
    breaks = sorted({*down, *up, end})
    prices = [[number(word) for word in row] for row in table]
    require([row[:1] for row in prices] == [[j] for j in range(1, min(limit, len(breaks) - 1) + 1)])
    require(all(len(row) == len(breaks) for row in prices))  # row[0] is the row's number, row[i] the price at break i

    # The profile is above the track at no metre.
    for metre in range(end):
        require(value_at(profile, metre) <= value_at(runs, metre), f"Above {metre}")

    # No price is above that of one step less, up to an earlier break, and what one step costs from there.
    ends = [start for start, _ in runs[1:]] + [end]
    faults = []
    for to in range(1, len(breaks)):
        for start in range(to):
            parts = [(max(x, breaks[start]), min(y, breaks[to]), value) for (x, value), y in zip(runs, ends)]
            between = [(value, y - x) for x, y, value in parts if x < y]
            given = min(value for value, _ in between) // multiple * multiple
            cost = sum((value - given) * length for value, length in between)
            for j, row in enumerate(prices, 1):
                before = 0 if j == 1 or start == 0 else prices[j - 2][start]
                if (j > 1 or start == 0) and row[to] > before + cost:
                    faults.append((j, to, start))
    if faults:
        j, to, start = min(faults)
        raise Refused(f"Inequality {j} {breaks[start]} {breaks[to]}")

    # The profile loses what the last price says, and has few enough steps.
    lost = sum(value_at(runs, metre) - value_at(profile, metre) for metre in range(end))
    require(told == lost == prices[-1][-1], "NotAttained")
    require(len(profile) <= limit, "Steps")
    return f"certified {kind} {lost}"


def main():
    text = sys.stdin.buffer.read()
    lines = text.split(b"\n")
    if lines[-1] == b"":
        lines.pop()
    fault, block, refused = None, None, False

    def close():
        """Prints the verdict on the block that is open, if one is."""
        nonlocal block, refused
        if block is not None:
            try:
                print(judge(*block))
            except Refused as reason:
                refused = True
                print(f"refused {reason}")
        block = None

    for count, line in enumerate(lines):
        if count == MOST_LINES:
            fault, block = "too many lines", None
            break
        if len(line) > LONGEST_LINE:
            close()
            print("refused Overlong")
            fault = "overlong line"
            break
        line = line.removesuffix(b"\r")
        is_text = all(0x20 <= byte <= 0x7E for byte in line)
        words = line.decode("ascii").split(" ") if is_text else []
        words = [word for word in words if word] or [""]
        if words[0] in KINDS:
            close()
            block = (words, None, [])
        elif block is not None and words[0] == "steps" and block[1] is None:
            block = (block[0], words, [])
        elif block is not None and words[0] == "prices" and block[1] is not None:
            block[2].append(words[1:])
        else:
            close()
    close()
    if fault:
        print(f"rbc: {fault}", file=sys.stderr)
    return 4 if fault else int(refused)


if __name__ == "__main__":
    sys.exit(main())
