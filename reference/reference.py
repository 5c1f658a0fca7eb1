"""A second program for sheet files, written from docs/FORMAT.md, docs/LABELS.md, docs/LOGICS.md and docs/SHEET.md alone.

It answers what `sheet` answers, byte for byte, by going over the definitions: all labels, all pairs of labels, all sets of
axioms. It is slow on purpose. Where going over all is impossible, a comment says so.

    python3 reference/reference.py < FILE
"""

import functools
import itertools
import sys

FILE_BYTES = 16_384
OUTPUT_BYTES = 65_536
PLACES = 1_024
WORK_BYTES = 16_384
MOST_AXIOMS = 64
MOST_USERS = 16
MOST_GOALS = 64
LARGEST_NUMBER = 4_294_967_295
LARGEST_IN_RECORD_OR_GOAL = 65_535

# Going over all subsets of more axioms than this takes too long. The reference then gives up; it never guesses.
MOST_AXIOMS_FOR_ALL_SUBSETS = 16

LAYER_OF_NUMBER = {
    1: "text", 2: "text", 3: "text", 19: "text", 20: "text",
    4: "kind", 5: "kind", 6: "kind", 8: "kind", 17: "kind",
    7: "logic", 9: "logic", 13: "logic",
    10: "sheet", 14: "sheet", 15: "sheet", 16: "sheet",
}


class Refused(Exception):
    """The file is refused at this line by this number."""

    def __init__(self, line, number):
        super().__init__(line, number)
        self.line = line
        self.number = number

    def text(self):
        return "F,%d,%s,%d\n" % (self.line, LAYER_OF_NUMBER[self.number], self.number)


class TooLarge(Exception):
    """The sheet is too large for going over all subsets. This says nothing about the file."""


class Disagreement(Exception):
    """Two things that the documents say are the same are not the same."""


def demand(truth, what):
    if not truth:
        raise Disagreement(what)


# ---------------------------------------------------------------------------------------------------------------- kinds


class ListedKind:
    """A kind of at most 32 labels. Every answer is found by going over all labels, or all pairs of labels."""

    def __init__(self, size, at_or_below):
        self.size = size
        self.order = [[at_or_below(a, b) for b in range(size)] for a in range(size)]
        self.joins = {}

    def is_label(self, number):
        return number < self.size

    def at_or_below(self, a, b):
        return self.order[a][b]

    def greatest_below_all(self, labels):
        """The label at or below each of these, and at or above every other such label; None where there is none.
        Every label is at or below each of no labels, so of the empty list this is the top."""
        below = [x for x in range(self.size) if all(self.order[x][label] for label in labels)]
        greatest = [x for x in below if all(self.order[y][x] for y in below)]
        return greatest[0] if greatest else None

    def least_above_all(self, labels):
        above = [x for x in range(self.size) if all(self.order[label][x] for label in labels)]
        least = [x for x in above if all(self.order[x][y] for y in above)]
        return least[0] if least else None

    def join(self, a, b):
        if (a, b) not in self.joins:
            self.joins[a, b] = self.least_above_all([a, b])
        return self.joins[a, b]

    def admits(self, user):
        """Join prime: whenever the user is at or below the join of two labels it is at or below one of them."""
        for a in range(self.size):
            for b in range(self.size):
                if self.order[user][self.join(a, b)] and not self.order[user][a] and not self.order[user][b]:
                    return False
        return True

    def has_all_meets_and_joins(self):
        pairs = itertools.product(range(self.size), repeat=2)
        return all(self.greatest_below_all(p) is not None and self.least_above_all(p) is not None for p in pairs)


class LongChain:
    """A chain in closed form. Going over all pairs of up to 65,536 labels is impossible here, so the smallest number is
    taken for the greatest label below all, the largest for the least above all, and every label is admitted.
    check.py compares this with ListedKind for every size from 1 to 32."""

    def __init__(self, size):
        self.size = size

    def is_label(self, number):
        return number < self.size

    def at_or_below(self, a, b):
        return a <= b

    def greatest_below_all(self, labels):
        return min(labels, default=self.size - 1)

    def least_above_all(self, labels):
        return max(labels, default=0)

    def admits(self, user):
        return True


class ManySets:
    """Sets of regions in closed form. Going over all 2^32 labels is impossible, so the intersection is taken for the
    greatest label below all, the union for the least above all; the empty set and the sets of one region are admitted.
    check.py compares this with ListedKind for every number of regions from 0 to 5."""

    def __init__(self, regions):
        self.everything = 2 ** regions - 1

    def is_label(self, number):
        return number <= self.everything

    def at_or_below(self, a, b):
        return a & ~b == 0

    def greatest_below_all(self, labels):
        return functools.reduce(lambda a, b: a & b, labels, self.everything)

    def least_above_all(self, labels):
        return functools.reduce(lambda a, b: a | b, labels, 0)

    def admits(self, user):
        return bin(user).count("1") <= 1


def listed_chain(size):
    return ListedKind(size, lambda a, b: a <= b)


def listed_sets(regions):
    def included(a, b):
        return all(b >> k & 1 for k in range(regions) if a >> k & 1)
    return ListedKind(2 ** regions, included)


def chain(size):
    return listed_chain(size) if size <= 32 else LongChain(size)


def sets(regions):
    return listed_sets(regions) if regions <= 5 else ManySets(regions)


def house_parts(label):
    """(sales, service, export) of a label; the label is 4 x sales + 2 x service + export."""
    for sales, service, export in itertools.product(range(3), range(2), range(2)):
        if label == 4 * sales + 2 * service + export:
            return sales, service, export


def house():
    def part_by_part(a, b):
        return all(x <= y for x, y in zip(house_parts(a), house_parts(b)))
    return ListedKind(12, part_by_part)


def labels_above(size, pairs):
    """For each label the set of labels to which a chain of pairs, perhaps of none, leads up from it."""
    above = []
    for start in range(size):
        reached = {start}
        todo = [start]
        while todo:
            here = todo.pop()
            for low, high in pairs:
                if low == here and high not in reached:
                    reached.add(high)
                    todo.append(high)
        above.append(reached)
    return above


def has_loop(size, pairs):
    above = labels_above(size, pairs)
    return any(b in above[a] and a in above[b] for a in range(size) for b in range(size) if a != b)


def table(size, pairs):
    above = labels_above(size, pairs)
    return ListedKind(size, lambda a, b: b in above[a])


# --------------------------------------------------------------------------------------------------------------- logics
#
# A record is (letter, x, y, z), in the order in which the file gives the numbers; S and T have only x and y.


class El:
    def __init__(self, concepts, roles):
        self.concepts = concepts
        self.roles = roles

    def work_bytes(self):
        return self.concepts * self.concepts

    def takes_record(self, record):
        meaning_of_numbers = {"S": "cc", "C": "ccc", "E": "crc", "R": "rcc"}.get(record[0])
        if meaning_of_numbers is None:
            return False
        limits = {"c": self.concepts, "r": self.roles}
        return all(number < limits[m] for number, m in zip(record[1:], meaning_of_numbers))

    def takes_goal(self, goal):
        return goal[0] < self.concepts and goal[1] < self.concepts

    def saturate(self, records, start):
        """An interpretation that satisfies the records and in which `start` lies in nothing but what it must lie in.
        Its elements are concepts; an element lies in itself, in concept 0, and in what the records force. It is given
        as the concepts of each element, and the triples (element, role, partner)."""
        lies = {start: {0, start}}
        partners = set()
        grew = True
        while grew:
            grew = False
            for x in list(lies):
                row = lies[x]
                for record in records:
                    letter = record[0]
                    if letter == "S":
                        new = record[2] if record[1] in row else None
                    elif letter == "C":
                        new = record[3] if record[1] in row and record[2] in row else None
                    elif letter == "E":
                        new = None
                        triple = (x, record[2], record[3])
                        if record[1] in row and triple not in partners:
                            partners.add(triple)
                            lies.setdefault(record[3], {0, record[3]})
                            grew = True
                    else:
                        new = None
                        for one, role, other in partners:
                            if one == x and role == record[1] and record[2] in lies[other]:
                                new = record[3]
                    if new is not None and new not in row:
                        row.add(new)
                        grew = True
        return lies, partners

    def follows(self, records, goal):
        a, b = goal
        lies, partners = self.saturate(records, a)
        if b in lies[a]:
            # Each step above holds in every interpretation that satisfies the records, so a lies in b in all of them.
            return True
        # A no is shown by the definition itself: here is an interpretation that satisfies all the records, and an
        # element of it that lies in a and not in b.
        demand(all(0 in row for row in lies.values()), "concept 0 is everything")
        demand(all(satisfied(lies, partners, r) for r in records), "the interpretation satisfies the records")
        demand(a in lies[a] and b not in lies[a], "the goal fails in the interpretation")
        return False

    def axioms_in_derivations(self, records, goal):
        """The places of the records that some derivation of the goal from all the records uses.

        A support S lies among these: the goal is derived from S, a derivation from S is one from all the records too,
        and a record of S that this derivation did not use could be left out of S, against the definition."""
        a, b = goal
        lies, _ = self.saturate(records, a)
        if b not in lies[a]:
            return []
        used = set()
        wanted = set()
        todo = [(a, b)]
        while todo:
            x, d = todo.pop()
            if (x, d) in wanted or d == x or d == 0:
                continue  # walked already, or it holds without any record
            wanted.add((x, d))
            for i, record in enumerate(records):
                letter = record[0]
                if letter == "S" and record[2] == d and record[1] in lies[x]:
                    used.add(i)
                    todo.append((x, record[1]))
                if letter == "C" and record[3] == d and record[1] in lies[x] and record[2] in lies[x]:
                    used.add(i)
                    todo += [(x, record[1]), (x, record[2])]
                if letter == "R" and record[3] == d:
                    for j, other in enumerate(records):
                        if other[0] == "E" and other[2] == record[1] and other[1] in lies[x]:
                            if record[2] in lies[other[3]]:
                                used |= {i, j}
                                todo += [(x, other[1]), (other[3], record[2])]
        return sorted(used)


def satisfied(lies, partners, record):
    """Whether the interpretation satisfies the record, as the table in docs/LOGICS.md says it."""
    letter = record[0]
    if letter == "S":
        return all(record[2] in row for row in lies.values() if record[1] in row)
    if letter == "C":
        return all(record[3] in row for row in lies.values() if record[1] in row and record[2] in row)
    if letter == "E":
        return all(any(one == x and role == record[2] and record[3] in lies[other] for one, role, other in partners)
                   for x, row in lies.items() if record[1] in row)
    return all(record[3] in lies[one] for one, role, other in partners if role == record[1] and record[2] in lies[other])


class Links:
    def __init__(self, points):
        self.points = points

    def work_bytes(self):
        return self.points

    def takes_record(self, record):
        return record[0] == "T" and record[1] < self.points and record[2] < self.points

    def takes_goal(self, goal):
        return goal[0] < self.points and goal[1] < self.points

    def reached(self, records, start):
        points = {start}
        grew = True
        while grew:
            grew = False
            for _, a, b in records:
                if a in points and b not in points:
                    points.add(b)
                    grew = True
        return points

    def follows(self, records, goal):
        return goal[1] in self.reached(records, goal[0])

    def axioms_in_derivations(self, records, goal):
        """The places of the links that stand in some chain of links from the goal's first point to its second. A
        support is the links of such a chain, since a link of it outside the chain could be left out."""
        if goal[0] == goal[1]:
            return []
        return [i for i, (_, a, b) in enumerate(records)
                if self.follows(records, (goal[0], a)) and self.follows(records, (b, goal[1]))]


# ------------------------------------------------------------------------------------------------------------- supports


def which_comes_first(one, other):
    """Of two different sets, the one that holds the smallest axiom in which they differ comes first."""
    if one == other:
        return 0
    return -1 if min(one ^ other) in one else 1


def in_order(supports):
    return sorted(supports, key=functools.cmp_to_key(which_comes_first))


def all_supports(logic, records, goal):
    """All supports, as sets of axiom numbers: every subset of the axioms is looked at, smaller ones first.

    Only axioms that stand in some derivation are gone over. This is still the definition: a set with an axiom of no
    derivation is no support, for the reason given at axioms_in_derivations. And a set that holds a support found
    before is larger than that support, so the goal follows from a proper subset, and the set is none."""
    numbers = [i + 1 for i in logic.axioms_in_derivations(records, goal)]
    if len(numbers) > MOST_AXIOMS_FOR_ALL_SUBSETS:
        raise TooLarge("%d axioms matter to the goal %s" % (len(numbers), goal))
    found = []
    for size in range(len(numbers) + 1):
        for subset in itertools.combinations(numbers, size):
            candidate = frozenset(subset)
            if any(support <= candidate for support in found):
                continue
            if logic.follows([records[k - 1] for k in subset], goal):
                found.append(candidate)
    return in_order(found)


def given_supports(logic, records, goal, supports):
    """Supports that make_cases.py has found by reasoning, where there are too many axioms for all subsets. That each is
    a support is checked here (leaving out one axiom is enough, since what follows from a list follows from a longer
    one); that none is missing is argued there. More than 1,024 checked supports are proof enough of refusal 15."""
    supports = [frozenset(s) for s in itertools.islice(supports, PLACES + 1)]
    demand(len(set(supports)) == len(supports), "the given supports are different")
    for support in supports:
        demand(logic.follows([records[k - 1] for k in support], goal), "the goal follows from a given support")
        for k in support:
            demand(not logic.follows([records[j - 1] for j in support if j != k], goal), "a given support is minimal")
    return in_order(supports)


# ---------------------------------------------------------------------------------------------------------------- sheet


class Sheet:
    def __init__(self, kind, logic, given=None):
        self.kind = kind
        self.logic = logic
        self.given = given or {}
        self.records = []
        self.labels = []
        self.rows = {}
        self.seen = {}  # (user, goal): yes or no, so that a goal in a thousand lines is worked out once

    def enter(self, line, record, label):
        if len(self.records) == MOST_AXIOMS:
            raise Refused(line, 10)
        if max(record[1:]) > LARGEST_IN_RECORD_OR_GOAL or not self.logic.takes_record(record):
            raise Refused(line, 9)
        if not self.kind.is_label(label):
            raise Refused(line, 8)
        self.records.append(record)
        self.labels.append(label)

    def check_user(self, line, user):
        if not self.kind.is_label(user):
            raise Refused(line, 8)
        if not self.kind.admits(user):
            raise Refused(line, 17)

    def publish(self, line, goal):
        if max(goal) > LARGEST_IN_RECORD_OR_GOAL or not self.logic.takes_goal(goal):
            raise Refused(line, 13)
        if goal not in self.rows and len(self.rows) == MOST_GOALS:
            raise Refused(line, 16)
        if self.logic.work_bytes() > WORK_BYTES:
            raise Refused(line, 14)
        if goal in self.rows:
            return  # the same axioms, the same supports
        if goal in self.given:
            supports = given_supports(self.logic, self.records, goal, self.given[goal])
        else:
            supports = all_supports(self.logic, self.records, goal)
        if len(supports) > PLACES:
            raise Refused(line, 15)
        self.rows[goal] = supports, self.boundary_of(supports)

    def boundary_of(self, supports):
        if not supports:
            return None
        meets = [self.kind.greatest_below_all([self.labels[k - 1] for k in support]) for support in supports]
        return self.kind.least_above_all(sorted(set(meets)))

    def sees(self, user, goal):
        """By the definition: the goal follows from the axioms whose label lies at or above the user's. The documents
        say that this is the same as being at or below the boundary, so it is an error where it is not."""
        if (user, goal) in self.seen:
            return self.seen[user, goal]
        seen = [r for r, label in zip(self.records, self.labels) if self.kind.at_or_below(user, label)]
        by_definition = self.logic.follows(seen, goal)
        boundary = self.rows[goal][1]
        by_boundary = boundary is not None and self.kind.at_or_below(user, boundary)
        demand(by_definition == by_boundary, "user %d, goal %s: definition and boundary" % (user, goal))
        self.seen[user, goal] = by_definition
        return by_definition


# ----------------------------------------------------------------------------------------------------------------- text

NUMBERS_AFTER_LETTER = {"O": 2, "S": 3, "C": 4, "E": 4, "R": 4, "T": 3, "U": 1, "Q": 2}
NUMBERS_AFTER_WORD = {
    ("K", "chain"): 1, ("K", "sets"): 1, ("K", "house"): 0, ("K", "table"): 1,
    ("G", "el"): 2, ("G", "links"): 1,
}
AXIOM_LETTERS = "SCERT"


def fields_of(line):
    return line.decode("latin-1").split(",")


def form_of(number_of_line, line):
    """Check 1: the letter, the word if the letter has one, and the fields that must be numbers."""
    fields = fields_of(line)
    letter = fields[0]
    if letter in ("K", "G") and len(fields) >= 2:
        word, numbers = fields[1], fields[2:]
        count = NUMBERS_AFTER_WORD.get((letter, word))
    else:
        word, numbers = "", fields[1:]
        count = NUMBERS_AFTER_LETTER.get(letter)
    if count is None or len(numbers) != count:
        raise Refused(number_of_line, 1)
    return letter, word, numbers


def number_of(number_of_line, field):
    """Check 3. A number is decimal, without leading zeros; zero itself is 0."""
    if field == "" or any(c not in "0123456789" for c in field):
        raise Refused(number_of_line, 3)
    if field[0] == "0" and field != "0":
        raise Refused(number_of_line, 3)
    if len(field) > 10 or int(field) > LARGEST_NUMBER:
        raise Refused(number_of_line, 3)
    return int(field)


def text_of(label):
    return "none" if label is None else str(label)


class Reader:
    """Takes the lines one after the other."""

    def __init__(self, given=None):
        self.given = given
        self.kind = None           # once it is settled
        self.table_size = None     # while O lines may come
        self.pairs = []
        self.last_table_line = None
        self.sheet = None
        self.users = []
        self.part = 0              # the number of parts begun, as in the table of docs/FORMAT.md
        self.out = []

    def allowed_letters(self):
        """Check 2: the letters of this part, and of those to which the file may go on from here."""
        if self.part == 0:
            return "K"
        if self.sheet is None:
            return "OG" if self.table_size is not None else "G"
        if self.part <= 4:
            return AXIOM_LETTERS + "UQ"
        if self.part == 5:
            return "UQ" if len(self.users) < MOST_USERS else "Q"
        return "Q"

    def take_line(self, at, line, has_line_end):
        if self.table_size is not None and fields_of(line)[0] != "O":
            self.finish_table()
        if not has_line_end:
            raise Refused(at, 1)
        letter, word, fields = form_of(at, line)
        if letter not in self.allowed_letters():
            raise Refused(at, 2)
        numbers = [number_of(at, field) for field in fields]
        if letter == "K":
            self.take_kind(at, word, numbers)
        elif letter == "O":
            self.take_pair(at, tuple(numbers))
        elif letter == "G":
            self.take_logic(at, word, numbers)
        elif letter in AXIOM_LETTERS:
            self.part = 4
            self.sheet.enter(at, (letter, *numbers[1:]), numbers[0])
        elif letter == "U":
            self.part = 5
            self.sheet.check_user(at, numbers[0])
            self.users.append(numbers[0])
        else:
            self.part = 6
            self.take_goal(at, tuple(numbers))

    def take_kind(self, at, word, numbers):
        self.part = 1
        smallest, largest = {"chain": (1, 65_536), "sets": (0, 32), "table": (1, 32), "house": (0, 0)}[word]
        if numbers and not smallest <= numbers[0] <= largest:
            raise Refused(at, 4)
        if word == "table":
            self.table_size = numbers[0]
            self.last_table_line = at
        else:
            self.kind = {"chain": chain, "sets": sets, "house": house}[word](*numbers)

    def take_pair(self, at, pair):
        self.part = 2
        if not all(label < self.table_size for label in pair):
            raise Refused(at, 8)
        self.last_table_line = at
        if pair not in self.pairs:  # the same pair again cannot close a loop
            self.pairs.append(pair)
            if has_loop(self.table_size, self.pairs):
                raise Refused(at, 5)

    def finish_table(self):
        finished = table(self.table_size, self.pairs)
        if not finished.has_all_meets_and_joins():
            raise Refused(self.last_table_line, 6)
        self.kind = finished
        self.table_size = None

    def take_logic(self, at, word, numbers):
        self.part = 3
        if word == "el":
            if not (1 <= numbers[0] <= 128 and numbers[1] <= 32):
                raise Refused(at, 7)
            logic = El(*numbers)
        else:
            if not 1 <= numbers[0] <= 128:
                raise Refused(at, 7)
            logic = Links(*numbers)
        self.sheet = Sheet(self.kind, logic, self.given)

    def take_goal(self, at, goal):
        self.sheet.publish(at, goal)
        supports, boundary = self.sheet.rows[goal]
        self.out.append("B,%d,%d,%s\n" % (*goal, text_of(boundary)))
        for support in supports:
            self.out.append(",".join(["M", *map(str, goal), *map(str, sorted(support))]) + "\n")
        for user in self.users:
            answer = "yes" if self.sheet.sees(user, goal) else "no"
            self.out.append("V,%d,%d,%d,%s\n" % (user, *goal, answer))

    def take_end(self, at):
        """The end of the file, which is where line `at` would stand."""
        if self.table_size is not None:
            self.finish_table()
        if self.sheet is None:
            raise Refused(at, 2)


def print_of(data, given=None):
    if len(data) > FILE_BYTES:
        raise Refused(0, 20)
    reader = Reader(given)
    *lines, rest = data.split(b"\n")
    for i, line in enumerate(lines):
        reader.take_line(i + 1, line, True)
    if rest:
        reader.take_line(len(lines) + 1, rest, False)
    reader.take_end(len(lines) + 1)
    text = "".join(reader.out)
    if len(text) > OUTPUT_BYTES:
        raise Refused(0, 19)
    return text


def answer(data, given=None):
    """What `sheet` prints for this file. `given` may give the supports of goals: {goal: supports}."""
    try:
        text = print_of(data, given)
    except Refused as refusal:
        text = refusal.text()
    return text.encode("ascii")


if __name__ == "__main__":
    sys.stdout.buffer.write(answer(sys.stdin.buffer.read()))
