"""Compares crates/sheet/out/sheet (built by `rt run` in crates/sheet) with the reference.

    python3 reference/compare.py N SEED     N random files made from the seed
    python3 reference/compare.py kept       the kept cases, with the kept answers

Prints the first disagreement whole, and a summary line. Ends with status 0 where nothing differs.
"""

import pathlib
import subprocess
import sys

sys.dont_write_bytecode = True

import reference
import sheets

ROOT = pathlib.Path(__file__).resolve().parent.parent
PROGRAM = ROOT / "crates" / "sheet" / "out" / "sheet"
SECONDS = 120


def random_file(dice):
    """Mostly valid sheets and sheets with one to three damages, some tables and some lines at random, some noise."""
    kind = dice.pick(["chain", "sets", "house", "table"])
    logic = dice.pick(["el", "links"])
    what = dice.below(100)
    if what < 52:
        return sheets.file_of(sheets.random_sheet(dice, kind, logic, 9))
    if what < 57:
        return sheets.file_of(sheets.random_sheet(dice, "pairs", logic, 6))
    if what < 62:
        return sheets.file_of(sheets.random_sheet(dice, kind, logic, 6, any_label_as_user=True))
    if what < 82:
        return sheets.damaged(dice, sheets.file_of(sheets.random_sheet(dice, kind, logic, 8)), 1 + dice.below(3))
    if what < 94:
        data = sheets.file_of(sheets.random_lines(dice, dice.below(10)))
        return sheets.damaged(dice, data, 1) if dice.chance(30) else data
    if what < 97:
        start = sheets.file_of(sheets.random_sheet(dice, kind, logic, 4))
        return start + sheets.noise_of_the_alphabet(dice, dice.below(40))
    if what < 98:
        return sheets.noise_of_the_alphabet(dice, dice.below(80))
    if what < 99:
        return sheets.long_file(dice)
    return sheets.noise(dice, dice.below(80))


def program_says(data):
    """What the program prints; where it fails or runs too long, a line that says so, which no answer equals."""
    try:
        done = subprocess.run([str(PROGRAM)], input=data, stdout=subprocess.PIPE, stderr=subprocess.PIPE, timeout=SECONDS)
    except subprocess.TimeoutExpired:
        return b"(no answer after %d seconds)\n" % SECONDS
    if done.returncode != 0:
        return b"(status %d)\n" % done.returncode + done.stdout + done.stderr
    return done.stdout


def show(name, data, reference_answer, program_answer):
    out = sys.stdout.buffer
    for title, text in (("file %s" % name, data), ("the reference", reference_answer), ("the program", program_answer)):
        out.write(b"---- %s, %d bytes\n" % (title.encode(), len(text)) + text)
        if text and not text.endswith(b"\n"):
            out.write(b"\n(no line end)\n")
    out.write(b"---- the file as Python bytes\n" + repr(data).encode() + b"\n----\n")
    out.flush()


def compare(cases):
    """Each case is its name, its file and the right answer."""
    compared = differ = 0
    for name, data, right in cases:
        got = program_says(data)
        compared += 1
        if got != right:
            differ += 1
            if differ == 1:
                show(name, data, right, got)
    print("%d compared, %d differ" % (compared, differ))
    return differ


def random_cases(count, seed):
    for k in range(count):
        data = random_file(sheets.Dice(seed * 1_000_003 + k))
        try:
            right = reference.answer(data)
        except Exception:
            print("the reference itself fails on number %d: %r" % (k, data))
            raise
        yield "number %d of seed %d" % (k, seed), data, right


def kept_cases():
    cases = (ROOT / "crates" / "sheet_cases" / "stdin").read_bytes()
    expected = (ROOT / "crates" / "sheet_cases" / "stdout").read_bytes()
    while cases:
        head, cases = cases.split(b"\n", 1)
        _, name, length = head.split(b" ")
        data, cases = cases[:int(length)], cases[int(length) + 1:]
        title = b"== %s\n" % name
        assert expected.startswith(title)
        rest = expected[len(title):]
        end = 0 if rest.startswith(b"== ") else rest.find(b"\n== ") + 1
        if end == 0 and not rest.startswith(b"== "):
            end = len(rest)
        yield name.decode(), data, rest[:end]
        expected = rest[end:]


def main(arguments):
    if arguments == ["kept"]:
        cases = kept_cases()
    elif len(arguments) == 2 and all(a.isdigit() for a in arguments):
        cases = random_cases(int(arguments[0]), int(arguments[1]))
    else:
        print(__doc__)
        return 2
    if not PROGRAM.is_file():
        print("The program %s is missing: nothing compared. Build it first." % PROGRAM)
        return 2
    return 1 if compare(cases) else 0


if __name__ == "__main__":
    sys.exit(main(sys.argv[1:]))
