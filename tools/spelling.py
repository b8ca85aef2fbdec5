#!/usr/bin/env python3
"""Brings the definitions and lemmas of this repository to the spelling of today's Rattle, once, after the toolchain's port.py:
words in snake case, facts and types in upper camel case. Names of the library, of goals and of steps in goals stay.

usage: python3 tools/spelling.py            at the top of the repository
       python3 tools/spelling.py --list     only prints each old and new name, and what falls together
"""
import glob
import re
import sys

EDGE = r"\s(){}\[\],;.⟨⟩∥|"
NAME = r"[^" + EDGE + r":=\"]+"
# a declaration: a name, then its type after a colon; a record field and a constructor too
DECLARED = re.compile(r"^[ ]*(?:abbrev |unfoldable )?(?:pub )?(?:abbrev |unfoldable )?(record |data )?(?:pub )?(" + NAME + r")((?: [({][^=]*?[)}])*) :(?= |$)(.*)$", re.M)
# a field of a record and a constructor of a data type, by their place
FIELD = re.compile(r"^( *)(?:pub )?record [^\n]*where\n((?:\1  [^\n]*\n)+)", re.M)
# names that would stand beside a function of src/ of that name, or fall together with another
OTHERWISE = {
    "left-exact": "exact_left",
    "right-exact": "exact_right",
    "weight-of": "weight_of_element",
    "way-of": "way_for",
    "pair-of": "chosen_pair",
    "joined-ends": "ends_after_join",
    "ruleOf": "rule_for",
    "lineKind": "kind_of_line",
    "sameKind": "is_same_kind",
    "natAbs-negℤ": "nat_abs_neg_ℤ",
    "getD-same": "get_same",
}


def spelled(name):
    """The name in today's spelling."""
    if name in OTHERWISE:
        return OTHERWISE[name]
    if name[0].isupper():
        return "".join(w[0].upper() + w[1:] if w else "" for w in name.replace("_", "-").split("-"))
    out = re.sub(r"(?<=[a-z])([A-Z])", lambda m: "_" + m[1].lower(), name)
    # a dash beside an operator stays: it joins a word to the operator's name
    if re.match(r"\w+(-\w+)+'*$", out):
        out = out.replace("-", "_")
    return out.replace("′", "'")


def files():
    found = []
    for crate in sorted(glob.glob("crates/*/")):
        for part in ("specs", "proofs", "src"):
            found += glob.glob(crate + part + "/**/*.antt", recursive=True) + glob.glob(crate + part + "/**/*.rt", recursive=True)
    return sorted(found)


def declared(paths):
    """The names that specs/ and proofs/ declare: of definitions and lemmas, and of fields. Goals are the toolchain's."""
    own, fields = {}, {}
    for p in paths:
        if not p.endswith(".antt"):
            continue
        text = open(p, encoding="utf-8").read()
        inside = set()
        for m in FIELD.finditer(text):
            inside |= {m.start(2) + k.start(1) for k in re.finditer(r"^" + m[1] + r"  (?:pub )?(" + NAME + r") :", m[2], re.M)}
        for m in DECLARED.finditer(text):
            name, rest = m[2], m[4]
            if re.match(r"\s*(goal|given)\.", rest) or name.startswith(("invariant-", "decreases-")):
                continue
            (fields if m.start(2) in inside else own).setdefault(name, set()).add(p)
    return own, fields


def split(text, rust):
    """Pieces of a text: (is code, piece). Comments and strings are no code."""
    mark = r'//[^\n]*|"(?:\\.|[^"\\])*"' if rust else r'--[^\n]*|"(?:\\.|[^"\\])*"'
    at, out = 0, []
    for m in re.finditer(mark, text):
        if not rust and m[0].startswith("--") and m.start() and text[m.start() - 1] not in " \n":
            continue
        out += [(True, text[at:m.start()]), (False, m[0])]
        at = m.end()
    return out + [(True, text[at:])]


def main():
    paths = files()
    own, fields = declared(paths)
    turn = {n: spelled(n) for n in own if spelled(n) != n}
    turn_fields = {n: spelled(n) for n in fields if spelled(n) != n}
    if "--list" in sys.argv:
        for n in sorted(turn):
            print(n, "->", turn[n], "|", sorted(own[n])[0])
        for n in sorted(turn_fields):
            print("." + n, "->", "." + turn_fields[n], "|", sorted(fields[n])[0])
    token = re.compile(r"(?<![^" + EDGE + r"])([^" + EDGE + r"\"]+)(?![^" + EDGE + r"])")
    seen_after_dot, together = {}, []
    for p in paths:
        rust = p.endswith(".rt")
        text = open(p, encoding="utf-8").read()
        here = set(token.findall(text))
        for n in here:
            if n in turn and turn[n] in here:
                together.append((p, n, turn[n]))
        pieces = []
        for code, piece in split(text, rust):
            if code:
                def put(m, piece=piece):
                    n, dot = m[1], m.start() and piece[m.start() - 1] == "."
                    if dot:
                        if n in turn and n not in turn_fields:
                            seen_after_dot.setdefault(n, set()).add(p)
                        return turn_fields.get(n, n)
                    if n in turn_fields and n not in turn:
                        return turn_fields[n]
                    return turn.get(n, n)
                piece = token.sub(put, piece)
            pieces.append(piece)
        new = "".join(pieces)
        if new != text and "--list" not in sys.argv:
            open(p, "w", encoding="utf-8").write(new)
    new_names = {}
    for n in own | {k: v for k, v in fields.items()}:
        new_names.setdefault(spelled(n), set()).add(n)
    for new, old in sorted(new_names.items()):
        if len(old) > 1:
            print("falls together:", new, sorted(old))
    for p, n, new in together:
        print("stands beside:", p, n, new)
    for n, ps in sorted(seen_after_dot.items()):
        print("after a dot, left:", n, sorted(ps)[:3])


main()
