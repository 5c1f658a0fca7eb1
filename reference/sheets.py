"""Random sheets, damaged files and noise, for make_cases.py and compare.py. The same seed gives the same bytes."""

import reference


class Dice:
    """A generator of our own, so that the kept cases do not hang on a version of Python."""

    def __init__(self, seed):
        self.state = (seed * 2_654_435_761 + 97) % 2 ** 64
        for _ in range(8):
            self.below(2)

    def below(self, n):
        self.state = (self.state * 6_364_136_223_846_793_005 + 1_442_695_040_888_963_407) % 2 ** 64
        return (self.state >> 33) % n

    def pick(self, things):
        return things[self.below(len(things))]

    def chance(self, percent):
        return self.below(100) < percent

    def shuffled(self, things):
        things = list(things)
        for i in range(len(things) - 1, 0, -1):
            j = self.below(i + 1)
            things[i], things[j] = things[j], things[i]
        return things


def file_of(lines):
    return "".join(line + "\n" for line in lines).encode("latin-1")


# ---------------------------------------------------------------------------------------------------------------- kinds
#
# Each gives the K line (with its O lines), labels for axioms, and labels that are admitted as users.


def random_chain(dice):
    size = dice.pick([1, 2, 3, 4, 5, 8, 32, 33, 1000, 65_536])
    labels = sorted({0, size - 1} | {dice.below(size) for _ in range(5)})
    return ["K,chain,%d" % size], labels, labels


def random_sets(dice):
    regions = dice.pick([0, 1, 2, 3, 3, 4, 4, 5, 6, 17, 32])
    everything = 2 ** regions - 1
    labels = [everything] + [dice.below(2 ** 31) * 2 + dice.below(2) & everything for _ in range(6)]
    return ["K,sets,%d" % regions], labels, [0] + [2 ** k for k in range(regions)]


def random_house(dice):
    return ["K,house"], list(range(12)), [0, 1, 2, 4, 8]


def random_lattice(dice, points, seeds):
    """A family of sets that holds the set of all points and is closed under intersection, ordered by inclusion. Two
    sets of it have their intersection for a meet, and the intersection of all sets of it that hold both for a join.
    Gives the number of labels and the pairs (low, high) with nothing between, the labels in random order."""
    family = {2 ** points - 1} | {dice.below(2 ** points) for _ in range(seeds)}
    while True:
        larger = family | {a & b for a in family for b in family}
        if larger == family:
            break
        family = larger
    family = dice.shuffled(sorted(family))
    size = len(family)

    def below(i, j):
        return i != j and family[i] & ~family[j] == 0

    pairs = [(i, j) for i in range(size) for j in range(size)
             if below(i, j) and not any(below(i, k) and below(k, j) for k in range(size))]
    return size, dice.shuffled(pairs)


def random_table(dice):
    size, pairs = random_lattice(dice, 2 + dice.below(4), 1 + dice.below(6))
    if size > 16:
        size, pairs = random_lattice(dice, 3, 4)
    if dice.chance(30):  # pairs that change nothing: a label with itself, a pair again, a pair that others yield
        above = reference.labels_above(size, pairs)
        low = dice.below(size)
        more = [(low, low), (low, dice.pick(sorted(above[low])))] + pairs[:1]
        pairs = dice.shuffled(pairs + more)
    kind = reference.table(size, pairs)
    lines = ["K,table,%d" % size] + ["O,%d,%d" % pair for pair in pairs]
    return lines, list(range(size)), [u for u in range(size) if kind.admits(u)]


def random_pairs(dice):
    """A table of random pairs, mostly without a loop, and mostly without some meet or join."""
    size = 2 + dice.below(5)
    names = dice.shuffled(range(size))
    pairs = []
    for _ in range(1 + dice.below(3 * size)):
        low, high = sorted([dice.below(size), dice.below(size)], reverse=dice.chance(4))
        pairs.append((names[low], names[high]))
    return ["K,table,%d" % size] + ["O,%d,%d" % pair for pair in pairs], list(range(size)), list(range(size))


KINDS = {"chain": random_chain, "sets": random_sets, "house": random_house, "table": random_table, "pairs": random_pairs}


def random_kind(dice, name):
    return KINDS[name](dice)


# --------------------------------------------------------------------------------------------------------------- logics


def random_el(dice):
    concepts = dice.pick([1, 2, 3, 4, 4, 5, 5, 6, 6, 7])
    roles = dice.pick([0, 1, 1, 1, 2, 3])
    onward = dice.chance(70)  # records that mostly lead from small concepts to larger ones, so that long chains arise

    def record():
        a, b = dice.below(concepts), dice.below(concepts)
        c = (max(a, b) + 1 + dice.below(2)) % concepts if onward and dice.chance(80) else dice.below(concepts)
        letter = dice.pick("SSSCCEEERRR" if roles else "SSSCC")
        if letter == "S":
            return letter, a, c
        if letter == "C":
            return letter, a, b, c
        if letter == "E":
            return letter, a, dice.below(roles), c
        return letter, dice.below(roles), b, c

    return "G,el,%d,%d" % (concepts, roles), reference.El(concepts, roles), concepts, record


def random_links(dice):
    points = dice.pick([1, 2, 3, 4, 4, 5, 5, 6, 7])
    onward = dice.chance(60)

    def record():
        a = dice.below(points)
        return "T", a, (a + 1 + dice.below(2)) % points if onward else dice.below(points)

    return "G,links,%d" % points, reference.Links(points), points, record


def random_goals(dice, logic, size, records, count):
    """Some goals at random, but mostly those to which many axioms matter."""
    every = [(a, b) for a in range(size) for b in range(size)]
    many = sorted(every, key=lambda goal: -len(logic.axioms_in_derivations(records, goal)))[:3]
    return [dice.pick(many if dice.chance(65) else every) for _ in range(count)]


def random_sheet(dice, kind_name, logic_name, most_axioms=9, any_label_as_user=False):
    """A sheet, as a list of lines; a valid one, unless the kind is "pairs" or any label may be a user."""
    kind_lines, labels, admitted = random_kind(dice, kind_name)
    if any_label_as_user:
        admitted = labels
    logic_line, logic, size, record = {"el": random_el, "links": random_links}[logic_name](dice)
    records = [record() for _ in range(dice.pick([0, 3, 6, 8, most_axioms, most_axioms, dice.below(most_axioms + 1)]))]
    if records and dice.chance(25):
        records[-1] = dice.pick(records)
    users = [dice.pick(admitted) for _ in range(dice.pick([0, 1, 2, 3, 4]))]
    goals = random_goals(dice, logic, size, records, dice.pick([0, 1, 2, 3, 4, 5]))
    if goals and dice.chance(15):
        goals.append(goals[0])
    return (kind_lines + [logic_line]
            + [",".join([r[0], str(dice.pick(labels)), *map(str, r[1:])]) for r in records]
            + ["U,%d" % user for user in users]
            + ["Q,%d,%d" % goal for goal in goals])


# --------------------------------------------------------------------------------------------------------------- damage

ALPHABET = b"KOGSCERTUQ0123456789,,,,\n\n\n"


def change_a_byte(dice, data):
    i = dice.below(len(data))
    new = dice.pick(ALPHABET) if dice.chance(70) else dice.below(256)
    return data[:i] + bytes([new]) + data[i + 1:]


def drop_a_byte(dice, data):
    i = dice.below(len(data))
    return data[:i] + data[i + 1:]


def double_a_byte(dice, data):
    i = dice.below(len(data))
    return data[:i + 1] + data[i:]


def put_a_byte(dice, data):
    i = dice.below(len(data) + 1)
    return data[:i] + bytes([dice.pick(ALPHABET + b"\r \t-+#x\x00\xff")]) + data[i:]


def cut(dice, data):
    return data[:dice.below(len(data))]


def drop_a_line(dice, data):
    lines = data.split(b"\n")[:-1]
    i = dice.below(len(lines))
    return b"".join(line + b"\n" for line in lines[:i] + lines[i + 1:])


def double_a_line(dice, data):
    lines = data.split(b"\n")[:-1]
    i, j = dice.below(len(lines)), dice.below(len(lines) + 1)
    return b"".join(line + b"\n" for line in lines[:j] + [lines[i]] + lines[j:])


def swap_two_lines(dice, data):
    lines = data.split(b"\n")[:-1]
    i, j = dice.below(len(lines)), dice.below(len(lines))
    lines[i], lines[j] = lines[j], lines[i]
    return b"".join(line + b"\n" for line in lines)


def change_a_number(dice, data):
    """Another number in one field, so that limits of kinds and logics are met."""
    lines = [line.split(b",") for line in data.split(b"\n")[:-1]]
    i = dice.below(len(lines))
    fields = [k for k, field in enumerate(lines[i]) if field.isdigit()]
    if fields:
        new = dice.pick([0, 1, 2, 3, 5, 7, 8, 12, 33, 128, 129, 65_535, 65_536, 4_294_967_295, 4_294_967_296])
        lines[i][dice.pick(fields)] = b"%d" % new
    return b"".join(b",".join(line) + b"\n" for line in lines)


DAMAGES = [change_a_byte, drop_a_byte, double_a_byte, put_a_byte, cut, drop_a_line, double_a_line, swap_two_lines,
           change_a_number]


def damaged(dice, data, times):
    for _ in range(times):
        if data.count(b"\n") == 0:
            break
        data = dice.pick(DAMAGES)(dice, data)
    return data


# ---------------------------------------------------------------------------------------------------------------- noise


def noise(dice, length):
    return bytes(dice.below(256) for _ in range(length))


def noise_of_the_alphabet(dice, length):
    return bytes(dice.pick(ALPHABET) for _ in range(length))


def long_file(dice):
    """A good file of about 16,384 bytes, sometimes beyond, and sometimes far beyond."""
    pairs = 11_000 if dice.chance(20) else 2_724 + dice.below(6)
    logic = dice.pick(["G,links,1", "G,links,10", "G,links,100", "G,el,1,0"])
    return file_of(["K,table,2"] + ["O,0,1"] * pairs + [logic] + ["U,0"] * dice.below(2) + ["Q,0,0"] * dice.below(2))


def random_lines(dice, count):
    """Lines of a good form with random small numbers, in an order that mostly follows the parts."""
    start = [dice.pick(["K,chain,%d" % dice.below(4), "K,sets,%d" % dice.below(4), "K,house", "K,table,%d" % dice.below(4)])]
    while dice.chance(50):
        start.append("O,%d,%d" % (dice.below(4), dice.below(4)))
    start.append(dice.pick(["G,links,%d" % dice.below(5), "G,el,%d,%d" % (dice.below(5), dice.below(3))]))
    middle = []
    for _ in range(count):
        letter = dice.pick("SSCCEERRTTTTTT")
        numbers = reference.NUMBERS_AFTER_LETTER[letter]
        middle.append(",".join([letter] + [str(dice.below(4)) for _ in range(numbers)]))
    if dice.chance(60):
        keep = "T" if start[-1].startswith("G,links") else "SCER"
        middle = [line for line in middle if line[0] in keep]
    end = ["U,%d" % dice.below(4) for _ in range(dice.below(3))]
    end += ["Q,%d,%d" % (dice.below(5), dice.below(5)) for _ in range(dice.below(4))]
    return start + middle + end
