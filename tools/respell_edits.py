#!/usr/bin/env python3
"""Brings the texts of must-fail edits to the spelling of the files that they edit: port.py turns no edit.

usage: python3 tools/respell_edits.py COMMIT      at the top, once, after port.py and respell.py; COMMIT is the last of the older form

Each old text is looked up in its file of COMMIT; the line that stands for it now is the new old text, where the files
have as many lines before it. The new text gets the library's new words and a tight projection. What could not be
brought over is printed, and is brought over by hand.
"""

import difflib
import glob
import re
import subprocess
import sys

WORDS = [
    (r"Rattle·(\w+)·(?:specs|proofs)\.(specs|proofs)\.", r"Rattle.\1.\2."),
    (r"Rattle·(\w+)\.", r"Rattle.\1."),
    (r"mathlib\.Core\.List\._\+\+_", "Rattle.std.specs.Prelude.◌++◌"),
    (r"(?<![\w.])getD(?![\w-])", "get_or"),
    (r"(?<=[\w)]) \.(?=[\w])", "."),
    (r"\((\w+(?:\.\w+)+)\)", r"\1"),
    (r"(?<![\w.])valuesOf(?![\w-])", "values_of"),
    (r"(?<![\w.])entryOf(?![\w-])", "entry_of"),
    ("′", "'"),
    (r"numberOf", "number_of"),
    (r"valueOf", "value_of"),
    (r"fieldOf", "field_of"),
    (r"stateOf", "state_of"),
]


def turn(text):
    for old, new in WORDS:
        text = re.sub(old, new, text)
    return text


def main():
    commit = sys.argv[1]
    left = 0
    for path in sorted(glob.glob("crates/*/must-fail/*.edit")):
        crate = path.split("/must-fail/")[0]
        lines = open(path, encoding="utf-8").read().split("\n")
        file, out = None, []
        for line in lines:
            if line.startswith("file: "):
                file = f"{crate}/{line[6:]}"
                now = open(file, encoding="utf-8").read()
                then = subprocess.run(["git", "show", f"{commit}:{file}"], capture_output=True, text=True).stdout
            if line.startswith(("old: ", "new: ")):
                said = turn(line[5:])
                if line.startswith("old: ") and now.count(said) != 1:
                    bare = re.sub(r"\s+", "", said)
                    fits = [x for x in now.split("\n") if re.sub(r"\s+", "", x) == bare or bare in re.sub(r"\s+", "", x)]
                    if len(fits) == 1 and re.sub(r"\s+", "", fits[0]) == bare:
                        said = fits[0]
                    else:
                        left += 1
                        near = difflib.get_close_matches(said, now.split("\n"), 1, 0.3)
                        print(f"left: {path}\n  {said}\n  near: {near}")
                line = line[:5] + said
            out.append(line)
        text = "\n".join(out)
        if text != "\n".join(lines):
            open(path, "w", encoding="utf-8").write(text)
    print(f"respell_edits: {left} texts left", file=sys.stderr)


if __name__ == "__main__":
    main()
