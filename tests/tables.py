"""Reads a message, or a packet alone, by the tables of docs/formats.md. It shares nothing with the centre."""

# The values of these say which fields come next: behind another one than the tables have nothing is known.
SAYS_NEXT = {"NID_MESSAGE", "NID_PACKET", "N_ITER", "Q_SECTIONTIMER", "Q_ENDTIMER", "Q_DANGERPOINT", "Q_OVERLAP"}
PACKETS = {15: "movement authority", 21: "gradients", 27: "speeds"}


class End(Exception):
    """Nothing more can be read."""


class Reading:
    """Bits that are read field by field, what they tell, and the first fault."""

    def __init__(self, digits):
        self.bytes, self.bits, self.at = len(digits) // 2, "".join(f"{int(digit, 16):04b}" for digit in digits), 0
        self.fields, self.words, self.packet, self.refused = [], {}, None, None
        self.direction, self.scale, self.end = None, None, None

    def refuse(self, fault, name, **found):
        self.refused = self.refused or {"fault": fault, "name": name, "bit": self.at, **found}

    def take(self, name, width, means, allowed=lambda value: value == 0, fault="Field", then=lambda value: None):
        """The next field. `then` answers a fault that shows behind an allowed value, or None."""
        left = len(self.bits) - self.at
        if left < width:
            self.refuse("Short", name, left=left)
            raise End
        value = int(self.bits[self.at : self.at + width], 2)
        packet = value if name == "NID_PACKET" else self.packet
        field = {"packet": packet, "bit": self.at, "name": name, "bits": width, "value": value, "meaning": means(value)}
        self.fields.append(field | ({"behind_fault": True} if self.refused else {}))
        found = then(value) if allowed(value) else fault
        if found:
            self.refuse(found, name, value=value)
        if name in SAYS_NEXT and not allowed(value):
            raise End
        self.at += width
        return value

    def any(self, name, width, means):
        return self.take(name, width, means, lambda value: True)

    def flag(self, name):
        self.take(name, 1, lambda value: "yes" if value else "no")

    def count(self, things, **rest):
        return self.take("N_ITER", 5, lambda value: f"{value} {things}", **rest)

    def fits(self, end):
        return 1 <= end <= 32_000 if self.scale == 1 else 3_201 <= end <= 8_000

    def place(self, units):
        """A place in words: where the scale is at fault nobody knows the metres."""
        return f"{units} units" if self.scale in (0, 3) else f"{self.metres(units)} m"

    def metres(self, units):
        return units * (1 if self.scale == 1 else 10)

    def header(self):
        self.take("NID_MESSAGE", 8, lambda value: "movement authority" if value == 3 else "another message", lambda value: value == 3, "Number")
        length = lambda value: "Short" if value > self.bytes else "Extra" if value < self.bytes else None
        self.take("L_MESSAGE", 10, lambda value: f"{value} bytes", lambda value: True, then=length)
        self.words["time"] = self.any("T_TRAIN", 32, lambda value: f"{10 * value} ms")
        self.flag("M_ACK")
        self.words["country"] = self.any("NID_C", 10, lambda value: "country or region")
        self.words["group"] = self.take("NID_BG", 14, lambda value: "balise group", lambda value: value <= 16_382)

    def start(self, number, length=None):
        """What each packet begins with. Answers how long it says that it is."""
        self.packet = number
        self.take("NID_PACKET", 8, lambda value: PACKETS.get(value, "another packet"), lambda value: value == number, "Number")
        told, ways = self.direction, ["reverse", "nominal", "both directions", "spare"]
        right = lambda value: value <= 1 if told is None else value == told
        self.direction = self.take("Q_DIR", 2, lambda value: ways[value], right)
        self.words.setdefault("direction", "nominal" if self.direction == 1 else "reverse")
        bits = lambda value: f"{value} bits"
        said = self.take("L_PACKET", 13, bits, lambda value: length is None or value == length, "Length")
        scale, units = self.scale, ["units of 10 cm", "units of 1 m", "units of 10 m", "spare"]
        right = lambda value: value in (1, 2) if scale is None else value == scale
        self.scale = self.take("Q_SCALE", 2, lambda value: units[value], right)
        return said

    def authority(self):
        self.start(15, 66)
        self.take("V_LOA", 7, lambda value: f"{5 * value} km/h")
        self.take("T_LOA", 10, lambda value: "no time-out" if value == 1023 else f"{value} s", lambda value: value == 1023)
        self.count("further sections")
        self.end = self.take("L_ENDSECTION", 15, lambda value: f"end at {self.place(value)}", self.fits)
        self.words["end"] = self.metres(self.end)
        for name in "Q_SECTIONTIMER", "Q_ENDTIMER", "Q_DANGERPOINT", "Q_OVERLAP":
            self.flag(name)

    def profile(self, number, distance, value, bits, each):
        """Packet 21 or 27: `value` reads what stands behind a distance."""
        said = self.start(number)
        begin = self.take(distance, 15, lambda value: f"from {self.place(value)}")
        values = [(begin, value(begin, False))]
        right = lambda steps: None if said == bits + each * steps else "Length"
        steps = self.count("further elements", allowed=lambda count: count >= 1, then=right)
        for left in reversed(range(steps)):
            is_end = lambda d: d >= 1 and (begin + d == self.end if self.end is not None else self.fits(begin + d))
            means = lambda d: ("from " if left else "end at ") + self.place(begin + d)
            begin += self.take(distance, 15, means, (lambda d: d >= 1) if left else is_end)
            values.append((begin, value(begin, not left)))
        self.words.setdefault("end", self.metres(begin))
        return [(self.metres(begin), found) for begin, found in values[:-1]]

    def gradient(self, begin, is_last):
        uphill = self.any("Q_GDIR", 1, lambda value: "uphill" if value else "downhill")
        slope = lambda size: size == 255 and not uphill if is_last else 1 - uphill <= size <= 254
        signed = lambda size: size if uphill else -size
        means = lambda size: f"end at {self.place(begin)}" if size == 255 else f"{signed(size)} per mille from {self.place(begin)}"
        return signed(self.take("G_A", 8, means, slope))

    def speed(self, begin, is_last):
        means = lambda fives: f"end at {self.place(begin)}" if fives == 127 else f"{5 * fives} km/h from {self.place(begin)}"
        fives = self.take("V_STATIC", 7, means, lambda value: value == 127 if is_last else 1 <= value <= 120)
        self.take("Q_FRONT", 1, lambda value: "no train length delay" if value else "train length delay")
        self.count("train categories")
        return 5 * fives

    def grades(self):
        found = self.profile(21, "D_GRADIENT", self.gradient, 54, 24)
        self.words["grades"] = [{"from": begin, "per_mille": size} for begin, size in found]

    def speeds(self):
        found = self.profile(27, "D_STATIC", self.speed, 58, 28)
        self.words["speeds"] = [{"from": begin, "km_per_hour": speed} for begin, speed in found]

    def filling(self):
        left = self.bits[self.at :]
        if len(left) >= 8:
            self.refuse("Length", "filling", left=len(left))
        elif "1" in left:
            self.refuse("Padding", "filling", value=int(left, 2))


def by_tables(line):
    """What is told of a line with a message or packet, as `rbc decode --json` tells it."""
    *name, digits = line.split()
    reading, kind = Reading(digits), name[0] if name else "message"
    only = {"0f": reading.authority, "15": reading.grades}.get(digits[:2].lower(), reading.speeds)
    try:
        for part in [reading.header, reading.authority, reading.grades, reading.speeds] if kind == "message" else [only]:
            part()
        reading.filling()
    except End:
        pass
    told = {"kind": kind, "fields": reading.fields}
    if reading.refused:
        return told | {"refused": reading.refused}
    return told | {"grades": [], "speeds": []} | reading.words
