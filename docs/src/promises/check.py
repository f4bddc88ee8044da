"""Every statement that docs/PROMISES.md quotes stands so in the sources.

A quoted statement is a block of lines that begin with four spaces. It is cut where a line is indented by just four, so each piece is
one declaration; of a piece all that is not white space must stand, in that order, in one file of crates (the marks `pub` and `unfoldable`
left out on both sides). `python3 docs/src/promises/check.py` prints the pieces that don't, and ends with 1 if there are any.
"""
import pathlib
import re
import sys

ROOT = pathlib.Path(__file__).resolve().parents[3]


def plain(text):
    text = re.sub(r"--.*|//.*", " ", text)
    text = re.sub(r"\b(pub|unfoldable|abbrev)\b", " ", text)
    return re.sub(r"\s+", "", text)


def pieces(text):
    piece = []
    for line in text.splitlines() + [""]:
        if line.startswith("     ") and piece:
            piece.append(line)
            continue
        if piece:
            yield "\n".join(piece)
        piece = [line] if line.startswith("    ") else []


def main():
    sources = [plain(path.read_text()) for suffix in ("antt", "rt") for path in sorted((ROOT / "crates").rglob("*." + suffix))]
    quoted = list(pieces((ROOT / "docs/PROMISES.md").read_text()))
    missing = [piece for piece in quoted if not any(plain(piece) in source for source in sources)]
    for piece in missing:
        print("not in the sources:\n" + piece)
    print(f"{len(quoted)} statements quoted, {len(missing)} not in the sources")
    sys.exit(1 if missing or not quoted else 0)


main()
