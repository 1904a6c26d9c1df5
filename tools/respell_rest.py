#!/usr/bin/env python3
"""respell_rest: the few names that respell.py and port.py left or garbled, once, after the crates were proved again.

  respell_rest.py [ROOT]

respell.py takes a line that begins with `in` or `use` for no declaration; port.py gave three bound names a capital.
A lemma that would have a definition's name gets `_lem`.
"""

import os
import re
import sys

LEMMAS = (
    "in-before in-below in-front in-front-apart in-front-append in-leaves in-off in-once in-page in-slots in-turn in-which "
    "use-allowed use-apart use-away use-clear use-here use-live use-one use-read use-relist use-some use-tagged use-to use-within use-words"
).split()
DEFINED = {"in_front", "in_page", "in_slots", "in_turn", "use_live", "use_to", "use_words"}
TURNED = {"None-found": "none_found", "Post-is": "post_is", "is_Block": "is_block"}
WORD = re.compile(r"(?<![\w'\-◌])[\w'\-◌]+")


def main():
    for name in LEMMAS:
        new = name.replace("-", "_")
        TURNED[name] = new + "_lem" if new in DEFINED else new
    root = sys.argv[1] if len(sys.argv) > 1 else "."
    for folder, dirs, files in os.walk(os.path.join(root, "crates")):
        dirs[:] = [d for d in dirs if d != "out"]
        for path in (os.path.join(folder, f) for f in files if f.endswith(".antt")):
            with open(path, encoding="utf-8") as file:
                text = file.read()
            new = WORD.sub(lambda m: TURNED.get(m[0], m[0]), text)
            if new != text:
                with open(path, "w", encoding="utf-8") as file:
                    file.write(new)


if __name__ == "__main__":
    main()
