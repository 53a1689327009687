#!/usr/bin/env python3
"""Says which edits of must-fail/ and more-edits/ can't be applied, and which functions have one. It runs no proof.

    edits.py            each edit that doesn't apply, and each crate of which the gate tries one alone, or more than ten;
                        status 1 where there is one
    edits.py CRATE ..   of these crates too: each public function and its edits, '*' at those of must-fail/, which the gate
                        tries, and '-' where it has none of its own (a private function that it calls may have one; laws
                        have no body to edit)
"""

import pathlib
import re
import sys

TOP = pathlib.Path(__file__).resolve().parent.parent
ITEM = re.compile(r"^(\s*)(pub(?:\([a-z]+\))? )?(?:const )?fn (\w+)|^(impl[^\n{]*)|^}", re.M)


def pairs_of(edit):
    """The path, old and new text of each pair of an edit."""
    path, old, pairs = "", "", []
    for line in edit.read_text().split("\n"):
        if line.startswith("file: "):
            path = line[len("file: ") :].strip()
        elif line.startswith("old: "):
            old = line[len("old: ") :]
        elif line.startswith("new:"):
            pairs.append((path, old, line[len("new:") :].removeprefix(" ")))
            old = ""  # (a second new text for it is none)
    return pairs


def fault_of(edit):
    """Why an edit can't be applied, or the empty text."""
    crate, texts = edit.parent.parent, {}
    pairs = pairs_of(edit)
    for path, old, new in pairs:
        if not path.startswith("src/"):
            return f"{path} is not code"
        if not (crate / path).is_file():
            return f"there is no file {path}"
        if not old:
            return f"a 'new:' text has no 'old:' text before it: {new}"
        text = texts.setdefault(path, (crate / path).read_text())
        if text.count(old) != 1:
            return f"an 'old:' text is in {path} {text.count(old)} times: {old}"
        if old == new:
            return f"it changes nothing: {old}"
        texts[path] = text.replace(old, new)
    return "" if pairs else "it has no pair of 'old:' and 'new:'"


def functions_of(text):
    """Where each function of a file begins, and its name after that of its impl; public ones are marked."""
    found, within = [], ""
    for item in ITEM.finditer(text):
        if item.group(3):
            found.append((item.start(), f"{within}{item.group(3)}", item.group(2) == "pub "))
        else:
            within = f"{item.group(4).strip()}: " if item.group(4) else ""
    return found


def list_crate(crate):
    """Prints each public function of a crate with its edits, and how many edits stand in other functions."""
    named = {}
    for edit in sorted([*crate.glob("must-fail/*.edit"), *crate.glob("more-edits/*.edit")]):
        path, old, _ = pairs_of(edit)[-1]
        text = (crate / path).read_text()
        begins = [it for it in functions_of(text) if it[0] <= text.find(old)]
        named.setdefault((path, begins[-1][1] if begins else ""), []).append(
            edit.stem + "*" * (edit.parent.name == "must-fail")
        )
    for path in sorted((crate / "src").rglob("*.rt")):
        inside = str(path.relative_to(crate))
        for _, name, is_public in functions_of(path.read_text()):
            edits = named.pop((inside, name), [])
            if is_public or edits:
                print(f"{crate.name} {inside} {'' if is_public else '(private) '}{name}: {' '.join(edits) or '-'}")
    for (inside, name), edits in named.items():
        print(f"{crate.name} {inside} (private) {name or 'no function'}: {' '.join(edits)}")


def crowds_of(edits):
    """What is wrong with how many edits of a crate are in the gate: a first one costs a proof of its crate, so one alone is
    dear, and more than ten make the gate slow."""
    kept = [edit.parent.parent for edit in edits if edit.parent.name == "must-fail"]
    return [
        (crate / "must-fail", f"{kept.count(crate)} edits") for crate in sorted(set(kept)) if not 2 <= kept.count(crate) <= 10
    ]


def main():
    edits = sorted(TOP.glob("crates/*/must-fail/*.edit")) + sorted(TOP.glob("crates/*/more-edits/*.edit"))
    faults = [(edit.relative_to(TOP), why) for edit in edits if (why := fault_of(edit))]
    crowds = [(place.relative_to(TOP), why) for place, why in crowds_of(edits)]
    for edit, why in faults + crowds:
        print(f"{edit}: {why}")
    for name in sys.argv[1:]:
        list_crate(TOP / "crates" / name)
    tried = sum(edit.parent.name == "must-fail" for edit in edits)
    print(f"{len(edits)} edits, {tried} of them in the gate, {len(faults)} cannot be applied")
    return 1 if faults or crowds else 0


if __name__ == "__main__":
    sys.exit(main())
