#!/usr/bin/env python3
"""Brings the names of this repository's definitions and lemmas to snake case.

    tools/snake_names.py [--list]      at the top of the repository; --list prints the names and changes nothing

What is renamed: each definition, lemma, record field and constructor that a file of crates/*/specs or crates/*/proofs
makes, where its name has a dash between letters or a capital behind a small letter. What is not: types, the names of
goals and invariants (Rattle makes those), names that come from the library, functions of src/, comments and texts.
Two names that would fall together are told apart by TOGETHER, and the script stops where it meets others.
"""
import pathlib
import re
import sys

TOP = pathlib.Path.cwd()
NAME = r"[^\s(){}\[\].,;:λ→⦃⦄\"`|]+"
TOKEN = re.compile(rf"(--[^\n]*|//[^\n]*|\"(?:[^\"\\\n]|\\.)*\")|({NAME})")

# names that would fall together with another one
TOGETHER = {
    "alive-root": "alive_root_there",
    "alive-roots": "alive_roots_counted",
    "at-end": "at_the_end",
    "noRecord": "is_no_record",
    "notBelow": "is_not_below",
    "plan-of": "plan_of_board",
    "status-of": "status_of_any",
    "verdict-of": "verdict_of_board",
}


def files(kinds, ending):
    for kind in kinds:
        yield from sorted(p for p in TOP.glob(f"crates/*/{kind}/**/*{ending}") if "/out/" not in str(p))


def snake(name):
    name = re.sub(r"(?<=[A-Za-z0-9'])-(?=[A-Za-z0-9])", "_", name)
    return re.sub(r"(?<=[a-z0-9])([A-Z])", lambda m: "_" + m.group(1).lower(), name) if re.match(r"[a-z]", name) and "_" not in name else name


def made():
    """The names that the repository's own files make."""
    names = set()
    for p in files(("specs", "proofs"), ".antt"):
        for line in p.read_text().split("\n"):
            m = re.match(rf"(?:pub |abbrev |unfoldable )*({NAME}) +:\s?(.*)$", line)
            if m and not re.match(r"(?:goal|need|given|rule)\.", m.group(2)):
                names.add(m.group(1))
            m = re.match(rf"  (?:pub )?({NAME}) +: ", line)
            if m:
                names.add(m.group(1))
    return names


def taken():
    """The names that files bring in from the library."""
    names = set()
    for p in [*files(("specs", "proofs"), ".antt"), *files(("src",), ".rt")]:
        for m in re.finditer(r"use Rattle\.std\.[^{;\n]*\{([^}]*)\}", p.read_text()):
            names.update(n.split(" as ")[0].strip() for n in m.group(1).split(","))
    return names


def renamed():
    out = {}
    for name in sorted(made() - taken()):
        if re.match(r"[a-z]", name) and snake(name) != name:
            out[name] = TOGETHER.get(name, snake(name))
    both = {}
    for name in [*out.values(), *(made() - out.keys())]:
        both[name] = both.get(name, 0) + 1
    clash = sorted(n for n, k in both.items() if k > 1)
    if clash:
        raise SystemExit("names that fall together: " + ", ".join(f"{n} ({' '.join(o for o in out if out[o] == n)})" for n in clash))
    return out


def main():
    new = renamed()
    if sys.argv[1:] == ["--list"]:
        print("\n".join(f"{a} {b}" for a, b in new.items()))
        return
    for p in [*files(("specs", "proofs"), ".antt"), *files(("src",), ".rt")]:
        text = p.read_text()
        turned = TOKEN.sub(lambda m: m.group(1) or new.get(m.group(2), m.group(2)), text)
        if turned != text:
            p.write_text(turned)


main()
