"""Makes files of sheets for the program `report`.

    make.py DIR COUNT SEED    random files, good and damaged: ticks-N.in and memory-N.in
    make.py heavy FILE        one library of 32 blocks that is much work
    make.py grow DIR          SERIES-N.in: the same work with counts, instances and levels doubled

The same arguments always write the same bytes.
"""
import os
import random
import sys

BASIC, SERVICE, COMPOSITE = 1, 2, 3
NONE = 255  # no algorithm, no output, no event; as an instance, outside


def field(tag, body):
    return bytes([tag, len(body) >> 8, len(body) & 255]) + bytes(body)


def face(kind, inputs, outputs):
    return field(1, [kind, inputs, outputs])


def amount(value, width=4):
    return value.to_bytes(width, "big")


def entry(event, value, counts, width=4):
    return field(5, [event, *amount(value, width), *counts])


def composite(inputs, outputs, instances, wires):
    parts = [field(6, [block]) for block in instances] + [field(7, wire) for wire in wires]
    return face(COMPOSITE, inputs, outputs) + b"".join(parts)


def write(path, sheets):
    with open(path, "wb") as file:
        file.write(b"".join(field(9, sheet) for sheet in sheets))


# ------------------------------------------------------------- random files

class Maker:
    """Makes the sheets of one file. It guesses which sheets are accepted, and
    remembers the inputs and outputs of those."""

    def __init__(self, rng, width):
        self.rng, self.width = rng, width
        self.blocks = []
        self.sure = None  # how many were entered before the first composite
        self.same = rng.random() < 0.5 and (rng.randint(1, 3), rng.randint(1, 4))
        self.style = rng.choices(["calm", "lively", "wild"], [5, 4, 2])[0]
        self.top = 256 ** width - 1
        self.reach = rng.choice([4, 20, 20, 1000, 1000, 60000, self.top])

    def chance(self, part):
        return self.rng.random() < part

    def amount(self):
        if self.chance(0.02):
            return self.top - self.rng.randint(0, 3)
        return self.rng.randint(0, self.reach)

    def count(self):
        rng = self.rng
        if self.style == "calm":
            return rng.choice([0, 0, 0, 1, 1, 2])
        if self.style == "lively":
            return rng.choice([0, 0, 1, 1, 2, 3, rng.randint(0, 9)])
        return rng.choice([0, 0, 1, 2, 5, rng.randint(0, 30), rng.randint(0, 254)])

    def face(self):
        if self.same:
            return self.same
        if self.chance(0.1):
            return self.rng.choice([(8, 8), (1, 0), (8, 0), (1, 8)])
        return self.rng.randint(1, 4), self.rng.randint(0, 5)

    def sheet(self):
        """A sheet that is meant to be good, and now and then is not."""
        weights = [3, 3, 5 if self.blocks else 0.2]
        kind = self.rng.choices([self.basic, self.service, self.composite], weights)[0]
        inputs, outputs = self.face()
        return kind(inputs, outputs), (inputs, outputs)

    # -- basic

    def basic(self, inputs, outputs):
        rng = self.rng
        if outputs > 2 and self.chance(0.15 if outputs == 3 else 0.5):
            return self.wide(inputs, outputs)
        algorithms = rng.choice([0, 1, 2, 3, 5, 16])
        states = rng.choice([1, 2, 3, 4, 6, 9, 32])
        sheet = face(BASIC, inputs, outputs) + self.amounts(algorithms)
        for _ in range(states):
            sheet += field(3, self.actions(algorithms, outputs))
        circle = self.chance(0.1)
        for _ in range(rng.randint(0, min(64, 3 * states))):
            sheet += field(4, self.transition(states, inputs, circle))
        return sheet

    def amounts(self, many):
        return field(2, b"".join(amount(self.amount(), self.width) for _ in range(many)))

    def actions(self, algorithms, outputs):
        body = []
        for _ in range(self.rng.choice([0, 1, 1, 2, 4])):
            body.append(self.rng.randrange(algorithms) if algorithms and self.chance(0.7) else NONE)
            body.append(self.rng.randrange(outputs) if outputs and self.chance(0.7) else NONE)
        return body

    def transition(self, states, inputs, circle):
        """Event-free ones lead upward, but where a circle is wanted."""
        rng = self.rng
        source, target = rng.randrange(states), rng.randrange(states)
        if not self.chance(0.4):
            return [source, target, rng.randrange(inputs)]
        if circle and self.chance(0.4) or source < target:
            return [source, target, NONE]
        return [target, source, NONE if target < source else 0]

    def wide(self, inputs, outputs):
        """A chart whose states mostly cost four sendings, and nothing else, so
        that no state covers another; lists are about 16 long."""
        rng = self.rng
        sheet = face(BASIC, inputs, outputs) + self.amounts(2)
        for _ in range(32):
            body = [NONE, 0] * 4
            body[0] = rng.randrange(2) if self.chance(0.1) else NONE
            body[1::2] = [rng.randrange(outputs) for _ in range(4)]
            sheet += field(3, body)
        free, ends = rng.choice([0.2, 0.5, 0.8]), rng.choice([1, 3])
        for _ in range(rng.randint(15, 64)):
            target = rng.randrange(ends, 32)
            if self.chance(free):
                sheet += field(4, [rng.randrange(ends), target, NONE])
            else:
                event = rng.choice([0, rng.randrange(inputs)])
                sheet += field(4, [rng.randrange(32), rng.choice([0, target, target, target]), event])
        return sheet

    # -- service

    def service(self, inputs, outputs, most=None):
        rng = self.rng
        sheet, rows = face(SERVICE, inputs, outputs), []
        for event in range(inputs):
            longest = 3 if self.style == "calm" else 6
            many = most or (16 if self.chance(0.05) else rng.randint(1, longest))
            rows += [(event, *row) for row in self.entries(many, outputs)]
        if self.chance(0.5):
            rng.shuffle(rows)
        if outputs and self.chance(0.18):
            rng.choice(rows)[2][rng.randrange(outputs)] = rng.choice([255, 255, 254])
        for event, value, counts in rows:
            sheet += entry(event, value, counts, self.width)
        return sheet

    def entries(self, many, outputs):
        """Entries at random, or a row of which none covers another."""
        rng = self.rng
        rows = [[self.amount(), [self.count() for _ in range(outputs)]] for _ in range(many)]
        if outputs and self.chance(0.5):
            at = rng.randrange(outputs)
            falling = sorted((row[0] for row in rows), reverse=True)
            rising = sorted(row[1][at] for row in rows)
            for row, value, count in zip(rows, falling, rising):
                row[0], row[1][at] = value, count
        return rows

    # -- composite

    def composite(self, inputs, outputs):
        rng = self.rng
        many = rng.choice([1, 2, 2, 3, 3, 4, 5, 8, 16])
        known = self.blocks or [(1, 1)]
        if self.sure is None:
            self.sure = len(self.blocks)
        if self.chance(0.4):  # what was entered last, for many levels
            numbers = [max(0, len(known) - rng.choice([1, 2, 3, 5])) for _ in range(many)]
        else:  # what is surely there, or anything
            end = self.sure if self.sure and self.chance(0.7) else len(known)
            numbers = [rng.randrange(end) for _ in range(many)]
        faces = [known[number] for number in numbers]
        wires = []
        for event in range(inputs):
            for _ in range(rng.choice([0, 1, 1, 1, 2, 3])):
                wires.append([NONE, event, *self.target(faces, 0, outputs)])
        back = self.chance(0.2)
        for instance, (_, ports) in enumerate(faces):
            for port in range(ports):
                for _ in range(rng.choice([0, 1, 1, 1, 2])):
                    low = 0 if back and self.chance(0.4) else instance + 1
                    wires.append([instance, port, *self.target(faces, low, outputs)])
        wires = [wire for at, wire in enumerate(wires) if wire[3] >= 0 and wire not in wires[:at]]
        if self.chance(0.5):
            rng.shuffle(wires)
        if wires and self.chance(0.06):
            wires.insert(rng.randrange(len(wires) + 1), rng.choice(wires))
        return composite(inputs, outputs, numbers, wires[:64])

    def target(self, faces, low, outputs):
        """An output to outside or an input of an instance from `low` on."""
        rng = self.rng
        if outputs and (low >= len(faces) or self.chance(0.3)):
            return NONE, rng.randrange(outputs)
        if low >= len(faces):
            return NONE, -1
        near = low if self.chance(0.5) else rng.randrange(low, len(faces))
        return near, rng.randrange(faces[near][0])


def fields_of(sheet):
    """The fields of a good sheet, each as a tag and a list of bytes."""
    parts, at = [], 0
    while at < len(sheet):
        length = sheet[at + 1] * 256 + sheet[at + 2]
        parts.append((sheet[at], list(sheet[at + 3:at + 3 + length])))
        at += 3 + length
    return parts


def framed(parts):
    return b"".join(field(tag, body) for tag, body in parts)


def damage_bytes(rng, sheet):
    """Damage that knows nothing of the fields."""
    way, at = rng.randrange(5), rng.randrange(len(sheet))
    if way == 0:
        return sheet[:at] + bytes([rng.randrange(256)]) + sheet[at + 1:]
    if way == 1:
        return sheet[:at]
    if way == 2:
        return sheet + bytes(rng.choice([0, 1, 3, 4, 7, 255]) for _ in range(rng.randint(1, 4)))
    if way == 3:
        return sheet[:at] + bytes([sheet[at] ^ 1 << rng.randrange(8)]) + sheet[at + 1:]
    return sheet[:at] + sheet[at + rng.randint(1, 3):]


def damage_form(rng, sheet):
    """Fields moved, doubled, left out, of another tag or another length."""
    parts = fields_of(sheet)
    at, other = rng.randrange(len(parts)), rng.randrange(len(parts))
    tag, body = parts[at]
    way = rng.randrange(8)
    if way == 0:
        parts[at], parts[other] = parts[other], parts[at]
    elif way == 1:
        parts.insert(other, parts[at])
    elif way == 2:
        del parts[at]
    elif way == 3:
        parts[at] = (rng.choice([0, 1, 2, 3, 4, 5, 6, 7, 8, 9, tag ^ 1]), body)
    elif way == 4:
        parts[at] = (tag, body + [rng.randrange(4)] if rng.random() < 0.5 else body[:-1])
    elif way == 5:
        del parts[rng.randrange(min(4, len(parts))):]
    elif way == 6:  # as many of one field that the limit is reached or passed
        parts[at:at] = [parts[at]] * rng.choice([13, 15, 16, 31, 32, 61, 63, 64])
    else:  # a length that is not the content's
        start = len(framed(parts[:at]))
        wrong = max(0, len(body) + rng.choice([-2, -1, 1, 2, 3, 256]))
        head = bytes([tag, wrong >> 8 & 255, wrong & 255])
        return sheet[:start] + head + sheet[start + 3:]
    return framed(parts)


def damage_numbers(rng, sheet):
    """A number that names nothing, or another than was meant."""
    parts = fields_of(sheet)
    if rng.random() < 0.15:
        parts[0] = (1, [rng.choice([0, 1, 2, 3, 4]), rng.choice([0, 1, 8, 9]), rng.choice([0, 8, 9])])
        return framed(parts)
    spots = [at for at, (_, body) in enumerate(parts) if at and body]
    for _ in range(rng.choice([1, 1, 2]) if spots else 0):
        tag, body = parts[rng.choice(spots)]
        at = 0 if tag == 5 and rng.random() < 0.6 else rng.randrange(len(body))
        if rng.random() < 0.2:
            other = rng.randrange(len(body))
            body[at], body[other] = body[other], body[at]
        else:
            body[at] = rng.choice([body[at] + 1 & 255, 3, 5, 8, 16, 32, 200, 254, 255, rng.randrange(256)])
    return framed(parts)


def repeat_connection(rng, sheet):
    parts = fields_of(sheet)
    wires = [part for part in parts if part[0] == 7]
    if wires:
        parts.insert(rng.randrange(len(parts) - len(wires), len(parts)) + 1, rng.choice(wires))
    return framed(parts)


def at_limit(rng, sheet, width):
    """As much of one tag as a sheet may have, or one more."""
    parts = fields_of(sheet)
    tag = rng.choice(sorted({tag for tag, _ in parts[1:]}))
    at = [tag for tag, _ in parts].index(tag)
    more = rng.random() < 0.7
    if tag == 2:
        parts[at] = (2, bytes(width * (16 + more)))
    elif tag == 3 and rng.random() < 0.5:
        parts[at] = (3, [NONE, NONE] * (4 + more))
    else:
        same = [part for part in parts if part[0] == tag and (tag != 5 or part[1][0] == parts[at][1][0])]
        most = {3: 32, 4: 64, 5: 16, 6: 16, 7: 64}[tag]
        parts[at:at] = [parts[at]] * (most + more - len(same))
    return framed(parts)


def other_width(rng, maker):
    width = 2 if maker.width == 4 else 4
    return Maker(rng, rng.choice([width, width, 3, 8])).sheet()[0]


def damaged(rng, maker):
    """A sheet with one fault, or two."""
    sheet = maker.sheet()[0]
    ways = [damage_bytes, damage_form, damage_numbers, repeat_connection]
    if rng.random() < 0.06:
        return other_width(rng, maker)
    if rng.random() < 0.03:
        return b""
    if rng.random() < 0.06:
        return at_limit(rng, sheet, maker.width)
    way = rng.choices(ways, [3, 3, 5, 2])[0]
    sheet = way(rng, sheet)
    if rng.random() < 0.25:
        try:
            sheet = rng.choice(ways)(rng, sheet)
        except (IndexError, ValueError):  # the first fault left nothing to damage again
            pass
    return sheet


def of_length(length):
    """A good basic sheet of so many bytes, from 16 to 400."""
    states = 1 if length % 2 == 0 else 2
    transitions, actions = divmod(length - 9 - 3 * states, 6)
    sheet = face(BASIC, 1, 0) + field(2, []) + field(3, [NONE, NONE] * (actions // 2))
    return sheet + field(3, []) * (states - 1) + field(4, [0, 0, 0]) * transitions


def full_shelf(rng, maker):
    """Sheets that fill the shelf to the last byte, or miss that by one."""
    sheets, left = [], 32768
    while left > 400:
        sheet = maker.service(8, 8, most=16) if left > 3000 else of_length(min(360, left - 40))
        sheets.append(sheet)
        left -= len(sheet)
    sheets.append(of_length(left + rng.choice([-1, 0, 1])))
    return sheets + [damaged(rng, maker) for _ in range(3)] + [maker.sheet()[0], of_length(16)]


def random_sheets(rng, maker):
    kind = rng.choices(["short", "middle", "long", "index", "shelf", "full"], [25, 45, 25, 3, 1, 1])[0]
    if kind == "full":
        return full_shelf(rng, maker)
    many = {"short": rng.randint(0, 3), "middle": rng.randint(4, 12), "long": rng.randint(20, 40),
            "index": rng.randint(33, 42), "shelf": rng.randint(18, 30)}[kind]
    faults = rng.choice([0, 0.2] if kind == "index" else [0, 0.1, 0.25, 0.5])
    sheets = []
    for _ in range(many):
        if rng.random() < faults:
            sheets.append(damaged(rng, maker))
            continue
        known = (8, 8)
        if kind == "shelf" and rng.random() < 0.85:
            sheet = maker.service(8, 8, most=16)
        elif kind == "index":
            known = (rng.randint(1, 3), rng.randint(0, 3))
            sheet = maker.service(*known, most=1)
        else:
            sheet, known = maker.sheet()
        sheets.append(sheet)
        maker.blocks = (maker.blocks + [known])[:32]
    return sheets


def random_file(path, rng, width):
    sheets = random_sheets(rng, Maker(rng, width))
    data = b"".join(field(9, sheet) for sheet in sheets)
    way = rng.randrange(30)
    if way == 0 and data:
        data = data[:-rng.randint(1, min(len(data), 40))]
    elif way == 1:
        data += bytes(rng.choice([9, 0, 8]) for _ in range(rng.randint(1, 3)))
    elif way == 2 and sheets:
        at = len(b"".join(field(9, sheet) for sheet in sheets[:rng.randrange(len(sheets))]))
        data = data[:at] + bytes([rng.choice([0, 1, 8, 10, 11, 255])]) + data[at + 1:]
    elif way == 3 and data:
        at = rng.randrange(len(data))
        data = data[:at] + bytes([rng.randrange(256)]) + data[at + 1:]
    with open(path, "wb") as file:
        file.write(data)


def random_files(folder, count, seed):
    os.makedirs(folder, exist_ok=True)
    for number in range(count):
        rng = random.Random(f"{seed} {number}")
        name, width = ("memory", 2) if number % 3 == 2 else ("ticks", 4)
        random_file(os.path.join(folder, f"{name}-{number:05}.in"), rng, width)


# ------------------------------------------- heavy work that keep lets pass
#
# A list may be joined with itself again and again and stay at 16 entries if each
# count is 0 or above 127. An entry that counts has a lower amount than the one
# that does not: call the difference its loss. Two counts above 127 make 255, so
# of all sums with 255 the one of the least losses alone is kept; and as every
# loss is below twice the least, it covers none of the entries with one count.

def steps(start, events=1):
    """A service block with one output: 15 entries, counts 0 and 128 to 254."""
    sheet = face(SERVICE, events, 1)
    for event in range(events):
        sheet += entry(event, start + event, [0])
        for step in range(14):
            sheet += entry(event, start + event - 20 - step, [128 + 9 * step])
    return sheet


def subsets(start):
    """A service block with eight outputs in four pairs: one entry of each set
    of pairs, 200 events at both outputs of a pair."""
    sheet = face(SERVICE, 1, 8)
    for chosen in range(16):
        counts = [200 * (chosen >> port // 2 & 1) for port in range(8)]
        sheet += entry(0, start - 3 * sum(counts) // 400, counts)
    return sheet


def driver(count, entries=16):
    """A service block of entries that do not cover each other: each sends
    `count` events at outputs 0 and 3, and one each at outputs 1 and 2."""
    sheet = face(SERVICE, 1, 8)
    for row in range(entries):
        counts = [count, 1, 1, count, 0, row, entries - row, 0]
        sheet += entry(0, 500 - 7 * row, counts)
    return sheet


def counter(count):
    """A service block with one entry: `count` events at each of four outputs."""
    return face(SERVICE, 1, 4) + entry(0, 3, [count] * 4)


def chart():
    """A basic block: 15 steps, each by one of two states with (30; 1) and
    (10; 2), event-free from both of one step to both of the next."""
    sheet = face(BASIC, 2, 1) + field(2, amount(30) + amount(10))
    for _ in range(15):
        sheet += field(3, [0, 0]) + field(3, [1, 0, NONE, 0])
    for state in range(28):
        after = state - state % 2 + 2
        sheet += field(4, [state, after, NONE]) + field(4, [state, after + 1, NONE])
    return sheet + b"".join(field(4, [29, state, 0]) for state in range(8))


def network(below, drivers, leaf, mover, count, instances=16):
    """A composite: one instance of the leaf, `drivers` of the mover which send
    to it, one of the counter, and blocks beneath that are started in a row."""
    numbers = [leaf[0]] + [mover] * drivers + [count]
    lower = [below[at % len(below)] for at in range(instances - len(numbers))]
    wires = [[0, port, NONE, port * 4 // leaf[1]] for port in range(leaf[1])]
    for at in range(1, drivers + 1):
        wires += [[NONE, 0, at, 0], [at, 0, 0, 0]]
    first = drivers + 2
    wires += [[1, 1, drivers + 1, 0], [drivers, 2, NONE, 4], [1, 3, NONE, 5]]
    wires += [[drivers + 1, port, NONE, 5] for port in range(4)]
    if lower:
        wires += [[1, 2, first, 0]]
        wires += [[at, 4, at + 1, 0] for at in range(first, first + len(lower) - 1)]
    return composite(1, 6, numbers + lower, wires)


def heavy():
    sheets = [steps(200), subsets(100), driver(200), counter(200), chart()]
    one, set_of = (0, 1), (1, 8)
    sheets += [network([], 2, one, 2, 3, 4), network([], 2, set_of, 2, 3, 4)]
    while len(sheets) < 32:
        last = len(sheets)
        level = (last - 7) % 4
        below = [last - 1, last - level] if level else [5, 6]
        sheets.append(network(below, 3, set_of if last % 2 else one, 2, 3))
    return sheets


def grow_counts(count):
    """24 composites of a leaf and two drivers that send `count` events to it."""
    wires = [[NONE, 0, 1, 0], [NONE, 0, 2, 0], [1, 0, 0, 0], [2, 0, 0, 0], [0, 0, NONE, 0]]
    return [steps(200), driver(count)] + [composite(1, 1, [0, 1, 1], wires)] * 24


def grow_instances(many):
    """8 composites of `many` instances, half leaves and half drivers, by pairs."""
    wires = []
    for leaf in range(0, many, 2):
        wires += [[NONE, 0, leaf + 1, 0], [leaf + 1, 0, leaf, 0], [leaf, 0, NONE, 0]]
    return [steps(200), driver(200)] + [composite(1, 1, [0, 1] * (many // 2), wires)] * 8


def grow_levels(levels):
    """A tower: each composite has a leaf, two drivers, and the composite beneath."""
    wires = [[NONE, 0, 1, 0], [1, 0, 0, 0], [1, 1, 2, 0], [2, 0, 0, 0], [0, 0, NONE, 0]]
    sheets = [steps(200), driver(200), composite(1, 2, [0, 1, 1], wires + [[2, 1, NONE, 1]])]
    while len(sheets) < 2 + levels:
        more = [[2, 1, 3, 0], [3, 1, NONE, 1]]
        sheets.append(composite(1, 2, [0, 1, 1, len(sheets) - 1], wires + more))
    return sheets


def grow(folder):
    os.makedirs(folder, exist_ok=True)
    series = [("counts", grow_counts, (25, 50, 100, 200)),
              ("instances", grow_instances, (2, 4, 8, 16)),
              ("levels", grow_levels, (2, 4, 8, 16))]
    for name, sheets, sizes in series:
        for size in sizes:
            write(os.path.join(folder, f"{name}-{size:03}.in"), sheets(size))


def main(words):
    if len(words) == 2 and words[0] == "heavy":
        write(words[1], heavy())
    elif len(words) == 2 and words[0] == "grow":
        grow(words[1])
    elif len(words) == 3:
        random_files(words[0], int(words[1]), int(words[2]))
    else:
        sys.exit(__doc__)


if __name__ == "__main__":
    main(sys.argv[1:])
