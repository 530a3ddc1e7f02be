#!/usr/bin/env python3
"""Has docs/MAP.md name the files in which functions are proved today: where a path F/Proof.antt is gone, F/Answers.antt, or else F/Invariants.antt;
"by the check" where the function has no file of its own any more.

usage: proof_files.py [FOLDER]      run again at any time: it turns only what is gone
"""

import os
import re
import sys

FILE = re.compile(r"[\w/+]+/proofs/[\w/+]+/(?:Proof|Answers|Invariants)\.antt")


def main(top):
    page = os.path.join(top, "docs/MAP.md")
    turned = 0

    def there(path):
        return os.path.exists(os.path.join(top, "crates", path))

    def today(match):
        nonlocal turned
        if there(match[0]):
            return match[0]
        turned += 1
        folder = os.path.dirname(match[0])
        return next((f"{folder}/{it}" for it in ("Answers.antt", "Invariants.antt", "Proof.antt") if there(f"{folder}/{it}")), "by the check")

    with open(page, encoding="utf-8") as f:
        lines = f.read().split("\n")
    for at, line in enumerate(lines):
        if line.startswith("| "):
            new = FILE.sub(today, line)
            # said once in a cell, and behind the files
            cells = new.split(" | ")
            for i, cell in enumerate(cells):
                parts = cell.split("; ")
                bare = [it for it in parts if it.removesuffix(" |") == "by the check"]
                if new != line and bare and len(parts) > len(bare):
                    end = " |" if cell.endswith(" |") else ""
                    kept = [it.removesuffix(" |") for it in parts if it.removesuffix(" |") != "by the check"]
                    cells[i] = "; ".join([*kept, "by the check"]) + end if not any("by the check" in it for it in kept) else "; ".join(kept) + end
                elif new != line and len(bare) > 1:
                    cells[i] = "by the check" + (" |" if cell.endswith(" |") else "")
            lines[at] = " | ".join(cells)
    with open(page, "w", encoding="utf-8") as f:
        f.write("\n".join(lines))
    print(f"proof_files: {turned} paths turned")


if __name__ == "__main__":
    main(sys.argv[1] if len(sys.argv) > 1 else ".")
