#!/usr/bin/env python3
"""Brings the repository's own definitions and lemmas to snake case, once, after port.py: python3 tools/respell.py, at the top.

A name with capitals inside (findOf) or with dashes (local-wins) becomes one with underscores, wherever it stands: specs, proofs, contracts,
must-fail edits, documents. Types and modules keep their capitals, functions of src/ and names that Rattle makes keep their spelling.
"""
import os
import re
import sys

# Names that would fall together: a definition with a function of src/ gets a word more, a lemma with a definition gets `_lem`.
APART = {
    "changeFrame": "change_frame_of", "checkFrame": "check_frame_of", "clearFrame": "clear_frame_of", "findFrame": "find_frame_of",
    "removeFrame": "remove_frame_of", "storeFrame": "store_frame_of", "mostLive": "most_live_of", "removeAt": "remove_at_of",
    "storeAt": "store_at_of", "xorByte": "xor_byte_of", "emptyGood": "is_empty_good", "slotGood": "is_slot_good",
    "slotsGood": "are_slots_good", "slot-in": "slot_at_in", "good-head": "good_head_lem", "words-from": "words_from_lem",
    "counts-from": "counts_from_lem", "find-by": "find_by_lem", "change-by": "change_by_lem", "remove-by": "remove_by_lem",
    "store_by": "store_by_lem", "store-done": "store_done_lem", "change-done": "change_done_lem", "remove-done": "remove_done_lem",
    "slots-good": "slots_good_lem", "map_of": "map_of_lem", "one_fewer": "one_fewer_lem", "Kept-at": "KeptAt",
}
DEFINED = re.compile(r"^([ ]*)((?:unfoldable |abbrev |pub )*)([a-z][\w'-]*[A-Z-][\w'-]*)(?=\s*(?:\{[^}]*\}\s*|\([^)]*\)\s*)*:)(.*)$", re.M)
WORD = re.compile(r"(?<![\w'·-])[A-Za-z][\w'-]*(?![\w'·])")


def files(top, endings):
    for folder, dirs, names in os.walk(top):
        dirs[:] = sorted(d for d in dirs if d != "out")
        for name in sorted(names):
            if name.endswith(endings):
                yield os.path.join(folder, name)


def read(path):
    with open(path, encoding="utf-8") as f:
        return f.read()


def snake(name):
    parts = re.sub(r"(?<=[a-z0-9])(?=[A-Z])", "_", name).replace("-", "_")
    return APART.get(name, parts.lower())


def own():
    """The names that specs/ and proofs/ define; not the answers in a function's own proof, which Rattle names."""
    found = set(APART)
    for path in files("crates", ".antt"):
        by_hand = path.endswith("/Proof.antt")
        for m in DEFINED.finditer(read(path)):
            if not (by_hand and ("tie." in m.group(4) or "statement" in m.group(4))):
                found.add(m.group(3))
    return found


def main():
    names = {n: snake(n) for n in own()}
    first = {}
    for n, s in sorted(names.items()):
        if s in first:
            sys.exit(f"respell: {n} and {first[s]} fall together as {s}")
        first[s] = n
    standing = set()
    for path in files("crates", (".antt", ".rt")):
        standing |= set(WORD.findall(read(path)))
    for s in sorted((standing - set(names)) & set(first)):
        sys.exit(f"respell: {first[s]} becomes {s}, which stands already")
    turned = 0
    pages = [p for p in files("docs", ".md") if os.path.basename(p) != "PORT.md"] + ["README.md"]
    for path in list(files("crates", (".antt", ".rt", ".edit"))) + pages:
        text = read(path)
        # In pages a name is turned only where it stands as code.
        unit = (lambda t: re.sub(r"`[^`\n]+`", lambda c: WORD.sub(lambda m: names.get(m.group(0), m.group(0)), c.group(0)), t)) \
            if path.endswith(".md") else (lambda t: WORD.sub(lambda m: names.get(m.group(0), m.group(0)), t))
        new = unit(text)
        if new != text:
            with open(path, "w", encoding="utf-8") as f:
                f.write(new)
            turned += 1
    print(f"respell: {len(names)} names, {turned} files")


main()
