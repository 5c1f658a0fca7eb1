#!/usr/bin/env python3
"""Brings the repository's own antt names to snake case: run once, at the top, right after port.py of the kit.

A name that the repository defines (in specs/, in proofs/*.antt, or beside the answers of a function) is written with
underscores for hyphens, and `getD` in it as `get_or`. Names of the library, names that the check makes (goals, steps, arms) and
names of functions stay. It prints each name that falls together with another word of a file, and writes nothing then.
"""
import os
import re
import sys

TOKEN = re.compile(r"[^\s(){}\[\],;.:`\"«»]+")
SIGNATURE = re.compile(r"^\s*(?:\|\s*)?(?:(?:abbrev|unfoldable|pub|data|record)\s+)*([^\s:(){}|=λ.,;]+)\s*(?:\([^()]*(?:\([^()]*\)[^()]*)*\)\s*|\{[^{}]*\}\s*)*:\s")
BINDERS = re.compile(r"(?:\blet\s+|λ\s+|\()((?:[^\s(){}:=.,;λ]+\s+)*[^\s(){}:=.,;λ]+)\s*(?=[:=.])")
IMPORT = re.compile(r"(?:ghost )?use (\w+)([^{}\n]*)\.\{([^}]*)\}")
# a definition that is written as a function of the same file is brought in under another name
OTHERWISE = {("crates/report/src/told.rt", "fault-line"): "line_of", ("crates/report/src/step.rt", "form-number"): "number_of"}
# files whose methods, or the folders of whose proofs, have the name of a definition: these are told apart by where they stand
APART = ("crates/prints/src/lib.rt", "/proofs/marks/first_marked/", "/proofs/Print/support_lines/", "/proofs/told/fault_line/")
# names that the scripts of the kit gave for want of a better one
OWN_WORDS = {"number_of_lem": "number_of", "digitValue": "digit_value_of", "countBy": "count_by_of"}


def files():
    for folder, dirs, names in os.walk("crates"):
        dirs[:] = sorted(d for d in dirs if d != "out")
        for name in sorted(names):
            if name.endswith((".antt", ".rt", ".edit")):
                yield os.path.join(folder, name)


def is_answers(path):
    return os.path.basename(path) in ("Answers.antt", "Invariants.antt", "Proof.antt")


def spelled(name):
    if name in OWN_WORDS:
        return OWN_WORDS[name]
    return name.replace("getD", "get_or").replace("-", "_")


def odd(name):
    return bool(re.fullmatch(r"[A-Za-z][\w'-]*", name)) and spelled(name) != name


def uncommented(line):
    return re.split(r"--\s|//\s", line + " ", maxsplit=1)[0]


def defined(path, text):
    """The names that a file of antt defines or binds."""
    names = set()
    for line in text.split("\n"):
        code = uncommented(line)
        found = SIGNATURE.match(code)
        if found and not re.search(r":\s*(∀ [^.]*\. )?goal\.", code) and not re.search(r":\s*(\(.*\) → )*goal\.", code):
            names.add(found.group(1))
        if re.search(r"\s(pub )?\w[\w'-]*\s+:\s", code):
            names |= set(re.findall(r"(?:^|\s)(?:pub )?([a-zA-Z][\w'-]*)\s+:\s", code)) if not re.search(r":\s*goal\.", code) else set()
        for group in BINDERS.findall(code):
            names |= set(group.split())
    return {n for n in names if odd(n)}


def foreign(text, crates):
    """The names that a file takes from the library, or from what the check makes."""
    names = set()
    for top, path, items in IMPORT.findall(text):
        parts = path.strip(".").split(".")
        own = top == "Rattle" and parts and parts[0] in crates and not re.search(r"\.proofs\..*\.(Goals|Given)$", "." + path)
        for item in items.split(","):
            words = item.split()
            if not words:
                continue
            if not own:
                names.add(words[0])
                if len(words) == 1 or not odd(words[-1]):
                    names.add(words[-1])
    return names


def main():
    crates = {c for c in os.listdir("crates")}
    texts = {p: open(p, encoding="utf-8").read() for p in files()}
    own = set()
    for path, text in texts.items():
        if path.endswith(".antt"):
            own |= defined(path, text)
            if not is_answers(path):
                code = "\n".join(uncommented(l) for l in text.split("\n") if not re.match(r"(ghost )?use ", l))
                own |= {w for w in TOKEN.findall(code) if odd(w)} - foreign(text, crates)
    own |= set(OWN_WORDS)
    # the steps of a proof are named after the functions that the code calls
    steps = {f.replace("_", "-") for p, text in texts.items() if p.endswith(".rt") for f in re.findall(r"fn (\w+)", text)}
    for text in texts.values():
        for _, _, items in IMPORT.findall(text):
            own |= {i.split()[-1] for i in items.split(",") if " as " in i and odd(i.split()[-1])}
    turned, together, left = {}, [], {}
    for path, text in texts.items():
        not_own = foreign(text, crates)
        if is_answers(path):
            not_own |= set(re.findall(r"goal\.([\w'-]+)", text))
        here = own - not_own
        words = set(TOKEN.findall(text))
        for name in sorted(words & here):
            if spelled(name) in words and spelled(name) not in own and (path, name) not in OTHERWISE and not any(a in path for a in APART):
                together.append("%s: %s falls together with %s" % (path, name, spelled(name)))

        def turn(found):
            word = found.group(0)
            if word not in here:
                if odd(word) and "-" in word:
                    left.setdefault(word, path)
                return word
            before = text[: found.start()]
            if is_answers(path) and (before.endswith("goal.") or before.endswith(".") and word in steps):
                return word
            other = OTHERWISE.get((path, word))
            if other is None:
                return spelled(word)
            whole = text[before.rfind("\n") + 1 : text.find("\n", found.end())]
            renamed = whole.startswith("ghost use") and not re.match(r" as ", text[found.end() :])
            return spelled(word) + " as " + other if renamed else spelled(word) if whole.startswith("ghost use") else other

        turned[path] = TOKEN.sub(turn, text)
    if "--left" in sys.argv:
        for word in sorted(left):
            print(word, left[word])
        return 0
    if together:
        print("\n".join(together))
        return 1
    for path, text in turned.items():
        if text != texts[path]:
            with open(path, "w", encoding="utf-8") as f:
                f.write(text)
    print("%d names" % len(own))
    return 0


sys.exit(main())
