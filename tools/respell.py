#!/usr/bin/env python3
"""respell: brings the repository's own definitions, fields and lemmas to today's spelling, after port.py.

  respell.py [--say] [ROOT]

Words are in snake case (leastFree: least_free), lemmas too, so that each can be named in `#[tactic(auto, using(..))]`
(copy-turn: copy_turn); types, facts and modules keep their capitals. Every .antt and .rt file below
crates/ is rewritten, in .rt files their clauses and ghost imports alone. Names of Rust functions, C names, strings
and a step of the code in a Proof.antt are not touched. It stops, and writes nothing, where two names would fall
together in one file. --say only prints what would become of what.
"""

import collections
import os
import re
import sys

IDENT = r"[^\s(){}\[\].,;:@\"`|⌜⌝⟦⟧]+"
# A lemma that would have its function's name gets `_lem`; a field that would have it gets `_is`.
INSTEAD = {
    "step_back": "step_back_lem", "no_room": "no_room_lem", "in_buffer": "in_buffer_lem", "heap_of": "heap_of_lem",
    "block_words": "block_words_lem", "asked_in": "asked_in_lem",
    "item-size": "item_size_is", "item-at": "item_at_is", "data-at": "data_at_is", "end-at": "end_at_is", "index-at": "index_at_is",
}
# Fields of a record of specs/ and of the struct that it stands for: one name is right.
TOGETHER = {"free_bytes", "free_blocks", "largest_free"}
DECLARED = re.compile(r"^(\s*)((?:unfoldable |abbrev |opaque |pub |record |data )*)(" + IDENT + r")((?: \([^()]*\)| \{[^{}]*\})*) : ")
SHARED = re.compile(r"^(\s*)((?:pub |unfoldable |abbrev )*)((?:" + IDENT + r" )+)(" + IDENT + r") : ")
WORD = re.compile(r"(?<![\w'\-◌])[\w'\-◌]+")


def antt_files(root):
    for folder, dirs, files in os.walk(os.path.join(root, "crates")):
        dirs[:] = sorted(d for d in dirs if d != "out")
        for f in sorted(files):
            if f.endswith(".antt"):
                yield os.path.join(folder, f)


def declared(text):
    """Names that a file declares: (name, is a type or a fact)."""
    for line in text.split("\n"):
        bare = line.split("--")[0]
        if re.match(r"^\s*(use|module|pub mod|mod|where|let|in|infix\w*)\b", bare):
            continue
        found = DECLARED.match(bare)
        if found and "=" not in bare[: found.end()]:
            yield found[3]
            continue
        several = SHARED.match(bare)
        if several and several[1] and "=" not in bare[: several.end()]:
            for name in several[3].split() + [several[4]]:
                yield name


def snake(part):
    if part[:1].isupper() or not re.search(r"[a-z0-9][A-Z]", part):
        return part
    return re.sub(r"(?<=[a-z0-9])([A-Z])", lambda m: "_" + m[1].lower(), part)


def main():
    say = "--say" in sys.argv[1:]
    given = [a for a in sys.argv[1:] if a != "--say"]
    root = given[0] if given else "."
    texts = {p: open(p, encoding="utf-8").read() for p in antt_files(root)}
    own = set()
    for path, text in texts.items():
        if path.endswith("/Proof.antt"):
            continue
        for name in declared(text):
            if re.fullmatch(r"[\w'\-]+", name) and not name.isupper() and len(name) > 1:
                own.add(name)

    plain = {snake(w) for text in texts.values() for w in WORD.findall(text) if "-" not in w}
    turned = {}
    for name in sorted(own):
        new = "_".join(snake(p) for p in name.split("-"))
        if "-" in name and new in plain:
            new += "_lem"
        new = INSTEAD.get(name, new)
        if new != name:
            turned[name] = new

    # two names that fall together in one file
    bad = []
    for path, text in texts.items():
        if path.endswith("/Proof.antt"):
            continue  # there a step of the code may have a definition's name: it is read behind a point
        seen = collections.defaultdict(set)
        for word in set(WORD.findall(text)):
            seen[turned.get(word, word)].add(word)
        for new, olds in seen.items():
            if len(olds) > 1 and new not in TOGETHER:
                bad.append((new, sorted(olds), os.path.relpath(path, root)))
    for b in sorted(bad):
        print("falls together:", *b)
    if say:
        for name, new in turned.items():
            print(f"{name}\t{new}")
    print(f"respell: {len(own)} names, {len(turned)} turned, {len(bad)} clashes", file=sys.stderr)
    if bad or say:
        return 1 if bad else 0

    def turn(text, steps=False):
        def one(m):
            # in a Proof.antt a step of the code, behind a point, may have a definition's name
            if steps and m[0] in INSTEAD and m.start() and text[m.start() - 1] == ".":
                return m[0]
            return turned.get(m[0], m[0])

        return WORD.sub(one, text)

    for path, text in texts.items():
        new = turn(text, path.endswith("/Proof.antt"))
        if new != text:
            open(path, "w", encoding="utf-8").write(new)
    for folder, dirs, files in os.walk(os.path.join(root, "crates")):
        dirs[:] = [d for d in dirs if d != "out"]
        for f in files:
            if f.endswith(".rt"):
                path = os.path.join(folder, f)
                text = open(path, encoding="utf-8").read()
                lines = text.split("\n")
                for i, line in enumerate(lines):
                    if re.match(r"\s*(pub )?ghost use |\s*(requires|ensures)\b", line) or in_clause(lines, i):
                        lines[i] = turn(line)
                new = "\n".join(lines)
                if new != text:
                    open(path, "w", encoding="utf-8").write(new)
    return 0


def in_clause(lines, i):
    """Whether a line goes on with a clause that began above it."""
    depth = 0
    j = i - 1
    while j >= 0 and j > i - 12:
        if re.match(r"\s*(requires|ensures)\b", lines[j]):
            text = "\n".join(lines[j:i])
            return text.count("{") > text.count("}")
        if re.match(r"\s*(pub |fn |\}|let |return )", lines[j]):
            return False
        j -= 1
    return False


if __name__ == "__main__":
    sys.exit(main())
