#!/usr/bin/env python3
"""Finds the places of older forms in src/ of a commit: `tools/forms.py COMMIT [POINT]`. docs/DESIGN-PASS.md says what was counted of them by reading."""
import collections
import itertools
import re
import subprocess
import sys

# For each point: a name of what is sought, and an extended regular expression for `git grep`.
SOUGHT = {
    1: [
        ("enums, to be read for the shape of Option or Result", r"^ *(pub(\([a-z]+\))? )?enum "),
        ("numbers in place of errors", r"-> Result<[^,]*, (usize|u32|u8)>|fn words\("),
        ("success or a switch as bool or as 0 and 1", r"fn push\(.*-> bool|: bool,$|\{ [01] \} else \{ [01] \}|pub cut: "),
        ("an error passed on by hand", r"Err\([a-z_]+\) => (return )?(Err|None)|Ok\([a-z]+\) => (Ok|Some)\([a-z]+\),$|Some\([a-z]+\) => Ok|^ *return (None|Err\((fault|refusal|place)\));"),
    ],
    2: [
        ("functions of each refusal", r"fn (layer|number|place|told)\("),
        ("functions that stand in several crates", r"fn (name_of|swung|weigh_piece|scaled|doubled|capacitor|coil|series|parallel|empty|fresh)\("),
        ("constants that stand twice", r"const (LARGEST_SIZE|LARGEST_VALUE|RATE|UNIT|PIECE)\b"),
    ],
    3: [("loops", r"^ *(while |loop \{|for .* in .*\.\.)")],
    4: [
        ("conversions", r"fn [a-z_]*_of\(|fn (whole|word|unit)\(|impl (From|TryFrom)<"),
        ("comparisons of parts", r"\.get\(\) == |\.(num|den|size|ears)\(\) == |\.place == .*number\(\)"),
        ("copies", r"let mut [a-z]+ = kept|^ *let way = self\.way"),
        ("printing", r"impl (fmt::)?Display|fn push_(number|word|signed)\(|line\.push\(b'|\{layer\} \{number\} \{place\}"),
    ],
    6: [
        ("a buffer, a length, an index", r"\[[a-zA-Z0-9]+; ?[A-Z0-9a-z +]+\]|\blen: usize|index: (usize|u32)"),
    ],
    7: [("switches", r"match (self\.)?(way|kind|choice|said)\b"), ("function values", r": fn\(|\bdyn |Box<dyn|impl Fn|: Fn(Mut|Once)?\(")],
}


def git(*words):
    return subprocess.run(["git", *words], capture_output=True, text=True).stdout


def found(commit, pattern):
    lines = git("grep", "-nE", "-e", pattern, commit, "--", "crates/*/src/*").splitlines()
    return [line.split(":", 1)[1] for line in lines]


def contracts(commit):
    """Facts that stand in three or more contracts, parameters of three or more functions of a crate, and clauses that list a port's members."""
    facts, groups, listed = collections.defaultdict(set), collections.defaultdict(set), 0
    for path in git("ls-tree", "-r", "--name-only", commit, "crates").split():
        if "/src/" not in path or not path.endswith(".rt"):
            continue
        crate, function = path.split("/")[1], "?"
        for m in re.finditer(r"fn (\w+)[^{;]*?\(([^)]*)\)|^\s*(?:requires|ensures)[^{]*\{(.*)\}\s*$", git("show", f"{commit}:{path}"), re.M):
            if m.group(1):
                function = f"{path}:{m.group(1)}"
                names = sorted(p.split(":")[0].strip().lstrip("&").replace("mut ", "") for p in m.group(2).split(",") if ":" in p)
                for group in itertools.combinations(names, 3):
                    groups[crate, group].add(function)
            else:
                listed += len(re.findall(r"\.reads \w+\.Port\.takes", m.group(3)))
                for part in m.group(3).split(" × "):
                    part = re.sub(r"\b(self|rig|session)\.(old|new|now)", "it", part).strip(" ()")
                    if len(part) > 12:
                        facts[part].add(function)
    return (
        [f"{len(v)} {k}" for k, v in sorted(facts.items()) if len(v) > 2],
        [f"{len(v)} {k[0]}: {' '.join(k[1])}" for k, v in sorted(groups.items()) if len(v) > 2],
        listed,
    )


def proofs(commit):
    """Lines of proofs, files of answers, and lemmas, of each crate."""
    by_crate = collections.defaultdict(lambda: [0, 0])
    for path in git("ls-tree", "-r", "--name-only", commit, "crates").split():
        if "/proofs/" in path:
            by_crate[path.split("/")[1]][0] += git("show", f"{commit}:{path}").count("\n")
            by_crate[path.split("/")[1]][1] += path.endswith("Answers.antt")
    return by_crate


def main():
    commit = sys.argv[1]
    only = [int(word) for word in sys.argv[2:]]
    for point in only or range(1, 9):
        for name, pattern in SOUGHT.get(point, []):
            places = found(commit, pattern)
            print(f"point {point}: {name}: {len(places)}")
            if only:
                print("\n".join("  " + place for place in places))
        if point == 5:
            facts, groups, listed = contracts(commit)
            print(f"point 5: facts in three or more contracts: {len(facts)}; three parameters of three or more functions: {len(groups)}; a port's members listed in clauses: {listed}")
            if only:
                print("\n".join("  " + line for line in facts + groups))
        if point == 8:
            by_crate = proofs(commit)
            print(f"point 8: {sum(v[0] for v in by_crate.values())} lines of proofs, {sum(v[1] for v in by_crate.values())} files of answers")
            if only:
                print("\n".join(f"  {name}: {lines} lines, {answers} files of answers" for name, (lines, answers) in sorted(by_crate.items())))


main()
