#!/usr/bin/env python3
"""Brings the names of definitions, lemmas and fields in crates/*/specs and crates/*/proofs to one spelling: words in snake case, types and
modules in camel case. A dash stays where it joins the names of two functions. Run once, at the top of the repository; files are rewritten in
place. With --dry it only prints the names that would change and those that would fall together.
"""
import collections
import glob
import re
import sys

KIT = sys.argv[sys.argv.index("--kit") + 1] if "--kit" in sys.argv else None
NAME = r"[A-Za-z_][\w'\-]*"
TOKEN = re.compile(r"(?<![\w'\-])" + NAME)
DECLARED = re.compile(r"^\s*(?:unfoldable\s+|abbrev\s+)?(?:pub\s+)?(" + NAME + r")\s*(?::|\(\w|\{\w)")
HEADS = {"use", "mod", "let", "in", "where", "elim", "unfolding", "data", "record", "pub", "abbrev", "unfoldable", "open", "infixl", "infixr"}
# Functions of the library whose names a lemma's name may hold.
LIBRARY = {"length", "take", "drop", "set", "map", "append", "get_or", "reverse", "repeat"}
# Names that would fall together with another, or that say an older word of the library.
SPECIAL = {
    "cell-line": "cell_line_lem",
    "cell-read": "cell_read_lem",
    "codes-low": "codes_low_lem",
    "edge-code": "edge_code_lem",
    "end-form": "end_form_lem",
    "id-count": "id_count_lem",
    "in-range": "in_range_lem",
    "in-room": "in_room_lem",
    "input-fits": "input_fits_lem",
    "is-new": "is_new_lem",
    "job-form": "job_form_lem",
    "label-in": "label_in_lem",
    "line-of": "line_of_lem",
    "lit-by": "lit_by_lem",
    "node-form": "node_form_lem",
    "node-step": "node_step_lem",
    "number-of": "number_of_lem",
    "out-form": "out_form_lem",
    "read-end": "read_end_lem",
    "read-head": "read_head_lem",
    "read-nodes": "read_nodes_lem",
    "read-outs": "read_outs_lem",
    "sizes-in": "sizes_in_lem",
    "out-row-below": "out_row_below_lem",
    "noDigit": "no_digit_first",
    "edgeIn": "edge_in_table",
    "outRow-below": "out_row-below",
    "node-count": "nodes_counted",
}
# Lemmas in snake case already, whose names a definition now takes: in these files alone.
SCOPED = [
    ("crates/jobs/proofs/Due.antt", "one_form"),
    ("crates/jobs/proofs/Accepted.antt", "read_one"),
    ("crates/listings/proofs/Loaded.antt", "one_line"),
    ("crates/diagram/proofs/Valid.antt", "same_test"),
    ("crates/diagram/proofs/TableWalk.antt", "step_in"),
    ("crates/diagram/proofs/walks/step/Proof.antt", "step_in"),
    ("crates/programs/proofs/Printing.antt", "set_found"),
    ("crates/programs/proofs/Answers.antt", "set_found"),
]


def files(*patterns):
    return sorted(p for q in patterns for p in glob.glob(q, recursive=True))


def snake(word):
    word = re.sub(r"([a-z0-9])([A-Z])", r"\1_\2", word)
    return word if word[:1].isupper() else word.lower()


def new_name(name, functions):
    if name in SPECIAL:
        return SPECIAL[name]
    parts = [("get_or" if p == "getD" else p) for p in name.split("-")]
    spelled = [snake(p) if p[:1].islower() else p for p in parts]
    out = spelled[0]
    for i in range(1, len(parts)):
        joins = parts[i - 1] in functions and parts[i] in functions or spelled[i][:1].isupper() or spelled[i - 1][:1].isupper()
        out += ("-" if joins else "_") + spelled[i]
    return out


def main():
    specs = files("crates/*/specs/**/*.antt")
    lemmas = [p for p in files("crates/*/proofs/**/*.antt") if not re.search(r"/(Proof|Invariants|Answers)\.antt$", p)]
    declared = collections.defaultdict(set)
    functions = set(LIBRARY)
    for p in specs + lemmas:
        for line in open(p, encoding="utf-8"):
            m = DECLARED.match(line)
            if m and m.group(1) not in HEADS:
                declared[m.group(1)].add(p)
                if p in specs and not line.startswith("  ") and m.group(1)[:1].islower() and "-" not in m.group(1):
                    functions.add(m.group(1))
    kit = set()
    if KIT:
        for p in files(KIT + "/rattle/**/*.antt"):
            for line in open(p, encoding="utf-8", errors="replace"):
                m = DECLARED.match(line)
                if m:
                    kit.add(m.group(1))
    renamed = {}
    for n in declared:
        if (not n[:1].islower()) or n in kit:
            continue
        new = new_name(n, functions)
        if new != n:
            renamed[n] = new
    together = collections.defaultdict(set)
    for old, new in renamed.items():
        together[new].add(old)
    for new, olds in sorted(together.items()):
        clash = set(olds)
        if new in declared:
            clash.add(new)
        if len(clash) > 1:
            print("together:", new, "<-", {o: sorted(declared[o])[:3] for o in sorted(clash)})
    sources = files("crates/*/src/**/*.rt")
    edits = files("crates/*/edits/*.edit", "crates/*/must-fail/*.edit")
    proofs = files("crates/*/proofs/**/*.antt")
    for p in sorted(set(specs + proofs + sources + edits)):
        text = open(p, encoding="utf-8").read()
        before = set(TOKEN.findall(text))
        for old in before & set(renamed):
            if renamed[old] in before and renamed[old] not in declared:
                print("stands:", p, old, "->", renamed[old])
        rt = p.endswith(".rt")
        scoped = {name: name + "_lem" for where, name in SCOPED if where == p}

        def turn(m):
            return scoped.get(m.group(0), renamed.get(m.group(0), m.group(0)))

        made = []
        for line in text.split("\n"):
            # A comment's words are not names, but for those that hold a capital inside.
            head, mark, tail = line.partition("--" if not rt else "//")
            if p.endswith(".edit") and line.startswith("#"):
                head, mark, tail = "", "#", line[1:]
            head = TOKEN.sub(turn, head)
            if mark:
                tail = TOKEN.sub(lambda m: renamed.get(m.group(0), m.group(0)) if re.search(r"[a-z][A-Z]", m.group(0)) else m.group(0), tail)
            made.append(head + mark + tail)
        made = "\n".join(made)
        if made != text and "--dry" not in sys.argv:
            open(p, "w", encoding="utf-8").write(made)
    if "--list" in sys.argv:
        for old in sorted(renamed):
            print(old, "->", renamed[old])
    print(len(renamed), "names")


main()
