"""Pages of which scripts write a part, and the floors of crates.txt.

A part stands in its page between the lines `<!-- NAME -->` and `<!-- end of NAME -->`.

    python3 docs/page.py PAGE NAME < TEXT     puts the text there
"""
import pathlib
import re
import sys

ROOT = pathlib.Path(__file__).resolve().parent.parent


def filled(page, name, text):
    """The page with this text as the part of that name."""
    begin, end = f"<!-- {name} -->\n", f"<!-- end of {name} -->\n"
    if page.count(begin) != 1 or page.count(end) != 1:
        sys.exit(f"docs/page.py: there have to be one line {begin.strip()} and one line {end.strip()}")
    front, _, rest = page.partition(begin)
    return front + begin + "\n" + text.strip("\n") + "\n\n" + end + rest.partition(end)[2]


def floors():
    """The floors of crates.txt, from the ground up: for each its name, what it is, and its crates, each with what that is."""
    found, about, block = [], [], []
    for line in [*(ROOT / "crates.txt").read_text().splitlines(), ""]:
        if line.startswith("## "):
            block.append(line[3:])
            continue
        if block:
            found.append((block[0], " ".join(block[1:]), []))
            about, block = [], []
        if line.startswith("# "):
            about.append(line[2:])
        elif ":" in line:
            if not about or not found:
                sys.exit(f"crates.txt: nothing says what this crate is: {line}")
            found[-1][2].append((line.split(":")[0], " ".join(about)))
        if not line.startswith("#"):
            about = []
    return found


def crates():
    """The names of all crates, from the ground up."""
    return [name for _, _, rows in floors() for name, _ in rows]


def head(crate):
    """The paragraphs of the `//!` lines at the head of a crate's root file."""
    lines = next(file for file in (ROOT / "crates" / crate / "src" / name for name in ("lib.rt", "main.rt")) if file.is_file()).read_text()
    text = re.match(r"(?://!.*\n)*", lines)[0]
    return [" ".join(part.split()) for part in re.split(r"\n\s*\n", re.sub(r"^//! ?", "", text, flags=re.M))]


def write(pages):
    """Writes each page as its function makes it of what it is now. With `--check [PAGE ..]` nothing is written: a line for each
    page, or for each of those, says whether it is so, and the status is 1 where one is not."""
    words = sys.argv[1:]
    check = words[:1] == ["--check"]
    named = [word for word in words[1:]] if check else words
    stale = False
    for name in named or pages:
        if name not in pages:
            sys.exit(f"{name} is no page of this script: {', '.join(pages)}")
        file = ROOT / name
        now = file.read_text() if file.is_file() else ""
        wanted = pages[name](now)
        if not check:
            file.write_text(wanted)
        else:
            stale = stale or now != wanted
            print(f"{name} is {'current' if now == wanted else 'stale: run the script that writes it, without --check'}")
    sys.exit(1 if stale else 0)


if __name__ == "__main__":
    file = ROOT / sys.argv[1]
    file.write_text(filled(file.read_text(), sys.argv[2], sys.stdin.read()))
