"""lists.py DRIVER [MOST]: compares the property lists that ligkern_display writes with those of tftopl, for the machine's font files.

DRIVER is tools/bench/driver/list.c, compiled. Of each file that TeX would take (all that lie below the folders of kpsewhich's path, MOST of them if it is given)
the instructions without the redirects in front and the last one that holds the left entry, the kerns, the unpacked entries, the boundary character and the
left entry are written by the library, and the BOUNDARYCHAR and LIGTABLE lists of `tftopl -charcode-format=octal` must be the same bytes. Left out, and
counted: files without a program, files with instructions that nothing reaches, which tftopl puts into a comment, and files with a redirect elsewhere.
"""
import os
import subprocess
import sys
import tempfile
from collections import Counter

import own_fonts
import tfm


def lists_of(text):
    """The two lists of a property list, as they stand."""
    kept, inside = [], False
    for line in text.splitlines(keepends=True):
        if line.startswith("(BOUNDARYCHAR") or line.startswith("(LIGTABLE"):
            inside = True
        if inside:
            kept.append(line)
        if inside and (line.startswith("(BOUNDARYCHAR") or line.rstrip("\n") == "   )"):
            inside = False
    return "".join(kept)


def lent(font):
    """The font without what packing put beside its instructions, as the driver reads it; None where a redirect stands elsewhere."""
    front = 0
    while front < len(font.instructions) and font.is_redirect(front):
        front += 1
    end = len(font.instructions) - (1 if front < len(font.instructions) and font.is_redirect(len(font.instructions) - 1) else 0)
    steps = font.instructions[front:end]
    if any(kind == tfm.REDIRECT for _, _, kind, _ in steps):
        return None
    left = font.left_entry - front if font.left_entry != tfm.NO_LEFT_ENTRY else -1
    entries = [(c, e - front) for c, e in sorted(font.entries.items())]
    rows = [[len(steps)] + [n for s in steps for n in s], [len(font.kerns)] + list(font.kerns), [len(entries)] + [n for e in entries for n in e], [font.boundary, left]]
    return "\n".join(" ".join(map(str, row)) for row in rows) + "\n"


def main():
    driver, most = sys.argv[1], int(sys.argv[2]) if len(sys.argv) > 2 else None
    counts, place = Counter(), tempfile.mkdtemp()
    for path in own_fonts.all_files()[:most]:
        try:
            font = tfm.read(path)
        except tfm.BadFile:
            counts["files that TeX would not take"] += 1
            continue
        text = subprocess.run(["tftopl", "-charcode-format=octal", path], capture_output=True, text=True, errors="replace").stdout
        due, numbers = lists_of(text), lent(font)
        if not due or numbers is None or "COMMENT THIS PART" in due:
            counts["left out: " + ("no program" if not due else "a redirect elsewhere" if numbers is None else "instructions that nothing reaches")] += 1
            continue
        if "(LIGTABLE\n   )\n" in due:  # tftopl writes an empty list where packing's own instructions are the only ones
            counts["empty LIGTABLE lists, which the library leaves out"] += 1
            due = due.replace("(LIGTABLE\n   )\n", "")
        name = os.path.join(place, "font")
        with open(name, "w") as file:
            file.write(numbers)
        said = subprocess.run([driver, name, "0", "display", "answer"], capture_output=True, text=True)
        counts["compared"] += 1
        counts["kerns"] += due.count("(KRN")
        if said.returncode or said.stdout != due:
            counts["DIFFERENCES"] += 1
            print(path, said.stderr)
    for what, n in sorted(counts.items()):
        print(f"{n:9,} {what}")
    return 1 if counts["DIFFERENCES"] else 0


if __name__ == "__main__":
    sys.exit(main())
