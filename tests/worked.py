"""Worked sessions, line by line with their replies, on the tracks of examples/. The messages are those of the tables in
docs/formats.md, written by hand."""

LOCKED = ("lock R1", "ok 1")
PLAIN_GRANT = """granted 1 3 305 1000 NoLink S1+
message 0309c00000fa00280221e810901ff801f400aa04e400001420fa1fe3681590000500083e8fe000
speed 31 0:100 end 1000
steps 0:100 loss 0
prices 1 0
grade 31 0:-5 end 1000
steps 0:-5 loss 0
prices 1 0
done"""
FIRST_GRANT = """granted 1 5 305 495 Occupied 2
message 0309c00000fa00280221e810901ff800f780aa04e4000014207bdfe3681590000500081effe000
speed 31 0:100 end 495
steps 0:100 loss 0
prices 1 0
grade 31 0:-5 end 495
steps 0:-5 loss 0
prices 1 0
done"""
SECOND_GRANT = """granted 2 6 705 1500 NoLink S2+
message 030c400001f400280221e810901ff802ee00aa066400001440fa20607d1fe3682390000500183e830000c8400012cfe000
speed 31 0:100 1000:120 1200:160 end 1500
steps 0:100 1000:120 1200:160 loss 0
prices 1 0 4000 22000
prices 2 0 0 4000
prices 3 0 0 0
grade 31 0:-5 1000:3 end 1500
steps 0:-5 1000:3 loss 0
prices 1 0 4000
prices 2 0 0
done"""

SPEED_LINE = [("speed 2 0:160 100:120 150:160 end 300", """speed 2 0:160 100:120 150:160 end 300
steps 0:120 150:160 loss 4000
prices 1 0 4000 10000
prices 2 0 0 4000
packet 1b40e480003000804b200004b7f000
done""")]
LINES = SPEED_LINE + [
    ("speed 2 0:160", "refused Words"),
    ("grade 2 0:-5 100:3 end 300", """grade 2 0:-5 100:3 end 300
steps 0:-5 100:3 loss 0
prices 1 0 1600
prices 2 0 0
packet 1540cc8000028803240c0643fc
done"""),
]
PLAIN = [LOCKED, ("report 1 5/17 nominal 300 5 5 200 1000", "ok 2"), ("ask 1", PLAIN_GRANT)]
TWO_TRAINS = [
    LOCKED,
    ("lock R2", "ok 2"),
    ("report 1 5/17 nominal 300 5 5 200 1000", "ok 3"),
    ("report 2 5/17 nominal 700 5 5 200 2000", "ok 4"),
    ("ask 1", FIRST_GRANT),
    ("ask 2", SECOND_GRANT),
]
OVERRUN = TWO_TRAINS + [
    ("report 1 5/17 nominal 750 255 5 200 5000", "ok 7"),
    ("ask 2", "blocked 2 7 705 Occupied 1"),
    ("ask 1", "blocked 1 7 495 Occupied 2"),
]
# Reports that are refused, each behind entries that leave room for more: a known train that its line does not lead to the
# group, whose front lies beyond the locks, and a new one whose rear does.
REFUSED_REPORTS = [
    LOCKED,
    ("report 1 5/17 nominal 300 5 5 200 1000", "ok 2"),
    ("report 1 5/18 reverse 50 5 5 200 2000", "refused Offline"),
    ("report 1 5/17 nominal 996 5 5 200 3000", "refused Unplaced"),
    ("report 2 5/17 nominal 300 101 5 200 4000", "refused Unplaced"),
    ("report 2 5/17 nominal 700 5 5 200 5000", "ok 3"),
]

# Certificates and the verdict on each: a best one, and forged ones.
HEAD = "speed 2 0:160 100:120 150:160 end 300"
STEPS = "steps 0:120 150:160 loss 4000"
ROWS = "prices 1 0 4000 10000\nprices 2 0 0 4000"
CERTIFICATES = [
    (f"{HEAD}\n{STEPS}\n{ROWS}", "certified speed 4000"),
    (f"{HEAD}\n{STEPS}\nprices 1 0 4000 10000\nprices 2 0 0 3999", "refused NotAttained"),
    (f"{HEAD}\n{STEPS}\nprices 1 0 4001 10000\nprices 2 0 0 4000", "refused Inequality 1 0 150"),
    (f"{HEAD}\nsteps 0:120 150:165 loss 4000\n{ROWS}", "refused Above 150"),
    ("speed 1 0:160 100:120 150:160 end 300\n" + STEPS + "\nprices 1 0 4000 4000", "refused Steps"),
    (f"{HEAD}\n{STEPS}\nprices 1 0 4000 10000", "refused Shape"),
    (f"{HEAD}\n{STEPS}\nprices 1 0 0 0\nprices 2 0 0 0", "refused NotAttained"),
    ("speed 1 0:100 end 50\nsteps 0:100 loss 0\nprices 1 0", "certified speed 0"),
]


def text_of(session):
    return "".join(f"{line}\n" for line, _ in session)


def replies_of(session):
    return "".join(f"{reply}\n" for _, reply in session)


def plain_tracks(count):
    """The plain track so many times: each has a section, a route and a group of its own number."""
    text = "format = 1\n"
    for number in range(1, count + 1):
        text += f'[[section]]\nname = "S{number}"\nlength = 1000\nspeeds = [[0, 100]]\ngrades = [[0, -5]]\n'
        text += f'[[group]]\ncountry = 5\nnumber = {number}\nsection = "S{number}"\noffset = 0\nnominal = "+"\n'
        text += f'[[route]]\nname = "R{number}"\nlegs = ["S{number}+"]\n'
    return text


def plain_report(number, front=300, time=1_000):
    """A report of the train of this number, on the plain track of its number."""
    return f"report {number} 5/{number} nominal {front} 5 5 200 {time}"
