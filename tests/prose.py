"""prose.py [--lower]: refuses prose that is hard to read, in the folder of the repository.

It looks at README.md and the other documents, and at the doc comments (`///`, `//!`) of crates/*/src:

openings    a doc comment that begins with a question word, 'Whether' or 'The same'
sentences   a sentence of more than 30 words
paragraphs  a paragraph, an entry of a list or a cell of a table of more than 90 words
types       a public type whose name another public type of a product crate has
links       a link to a file or a heading that is not there

A piece of code between backquotes counts as one word. A sentence ends with `.`, `!`, `?`, `:` or `;`.

tests/prose.tsv has what is not mended yet: a file, a kind and how many faults. A count may only fall. A file with more
faults is refused with each of them, and a file with fewer until its count is lowered, which --lower does.
"""

import re
import sys
from collections import defaultdict
from pathlib import Path

ALLOWED = Path("tests/prose.tsv")
DOCUMENTS = ["*.md", "docs/**/*.md", "bench/**/*.md", "tests/*.md", "python/*.md", "crates/*/CALLING.md"]
MOST_WORDS = {"sentences": 30, "paragraphs": 90}

OPENING = re.compile(r"(What|Which|Who|Whom|Whose|When|Where|Why|How|Whether|The same)\b")
FENCE = re.compile(r"\s*(```|~~~)")
ITEM = re.compile(r"^\s*(?:[-*]|\d+\.) ")
COMMENT = re.compile(r"\s*//([/!])(?!/) ?(.*)")
PUBLIC_TYPE = re.compile(r"pub (?:struct|enum|trait|type|union) (\w+)")
LINK = re.compile(r"\[((?:[^][]|\[[^][]*\])*)\]\(([^)\s]*)\)")
CODE = re.compile(r"`[^`]*`")
SENTENCE_END = re.compile(r"(?<=[.!?:;])[)*]*\s+")

# By file and kind: where each fault is, and what is wrong there.
faults = defaultdict(list)


def refuse(path, kind, line, text):
    faults[str(path), kind].append(f"{path}:{line}: {text}")


def look_at(path, line, text):
    """Refuses a paragraph that is long, and each long sentence of it."""
    plain = LINK.sub(r"\1", CODE.sub("x", text))
    for kind, parts in (("sentences", SENTENCE_END.split(plain)), ("paragraphs", [plain])):
        for part in parts:
            count = len(part.split())
            if count > MOST_WORDS[kind]:
                refuse(path, kind, line, f"{count} words: {part.strip()[:70]}..")


def look_at_lines(path, lines):
    """Looks at the paragraphs of these numbered lines, which a blank line, a heading, an item or a row divides."""
    begun, words, fenced = 0, [], False
    for number, line in [*lines, (0, "")]:
        if FENCE.match(line):
            fenced, line = not fenced, ""
        elif fenced:
            continue
        ends = not line.strip() or line.startswith(("#", "    ", "|")) or ITEM.match(line)
        if ends and words:
            look_at(path, begun, " ".join(words))
            words = []
        if line.startswith("|"):
            for cell in re.split(r"(?<!\\)\|", line.strip("|")):
                look_at(path, number, cell)
        elif line.strip() and not line.startswith(("#", "    ")):
            begun = begun if words else number
            words.append(ITEM.sub("", line, count=1))


def look_at_comments(path):
    """Looks at the doc comments of a file of code: neighbouring lines of one kind are one."""
    block, last = [], None
    for number, line in enumerate([*path.read_text(encoding="utf-8").splitlines(), ""], 1):
        found = COMMENT.match(line)
        kind = found[1] if found else None
        if kind != last and block:
            opening = OPENING.match(block[0][1])
            if opening:
                refuse(path, "openings", block[0][0], f"begins with '{opening[0]}': {block[0][1][:60]}")
            look_at_lines(path, block)
            block = []
        if found:
            block.append((number, found[2]))
        last = kind


def look_at_types(paths):
    """Refuses each public type that has the name of another one."""
    places = defaultdict(list)
    for path in paths:
        for number, line in enumerate(path.read_text(encoding="utf-8").splitlines(), 1):
            found = PUBLIC_TYPE.match(line)
            if found:
                places[found[1]].append((path, number))
    for name, found in places.items():
        for path, number in found if len(found) > 1 else ():
            others = ", ".join(str(other) for other, _ in found if other != path)
            refuse(path, "types", number, f"{name} is also in {others}")


def headings(path):
    """The headings of a document, as links name them."""
    names, fenced = set(), False
    for line in path.read_text(encoding="utf-8").splitlines():
        if FENCE.match(line):
            fenced = not fenced
        elif line.startswith("#") and not fenced:
            title = LINK.sub(r"\1", line.lstrip("#")).strip().lower()
            names.add(re.sub(r"[^\w\- ]", "", title).replace(" ", "-"))
    return names


def look_at_links(path):
    fenced = False
    for number, line in enumerate(path.read_text(encoding="utf-8").splitlines(), 1):
        if FENCE.match(line):
            fenced = not fenced
        for _, target in () if fenced else LINK.findall(CODE.sub("x", line)):
            name, _, heading = target.partition("#")
            if re.match(r"[a-z]+:", name):
                continue
            file = path.parent / name if name else path
            if not file.exists():
                refuse(path, "links", number, f"there is no {target}")
            elif heading and file.suffix == ".md" and heading not in headings(file):
                refuse(path, "links", number, f"{file} has no heading for {target}")


def allowed():
    """How many faults tests/prose.tsv leaves to a file and kind."""
    rows = (line.split("\t") for line in ALLOWED.read_text(encoding="utf-8").splitlines() if line[:1] not in ("", "#"))
    return {(file, kind): int(count) for file, kind, count in rows}


def lower(counts):
    """Writes the counts again, each no higher than it was."""
    head = [line for line in ALLOWED.read_text(encoding="utf-8").splitlines() if line.startswith("#")]
    rows = [(*key, min(count, len(faults[key]))) for key, count in sorted(counts.items())]
    lines = head + [f"{file}\t{kind}\t{count}" for file, kind, count in rows if count]
    ALLOWED.write_text("\n".join(lines) + "\n", encoding="utf-8")


def main():
    documents = sorted({path for pattern in DOCUMENTS for path in Path().glob(pattern)})
    sources = sorted(path for path in Path("crates").glob("*/src/**/*.rt"))
    for path in documents:
        look_at_lines(path, enumerate(path.read_text(encoding="utf-8").splitlines(), 1))
        look_at_links(path)
    for path in sources:
        look_at_comments(path)
    look_at_types(path for path in sources if not path.parts[1].endswith("_tests"))
    counts = allowed()
    if sys.argv[1:] == ["--lower"]:
        lower(counts)
        counts = allowed()
    for key in sorted(faults.keys() | counts.keys()):
        count, most = len(faults[key]), counts.get(key, 0)
        if count > most:
            print(f"{key[0]}: {count} {key[1]}, and tests/prose.tsv leaves {most}:", *faults[key], sep="\n  ")
        elif count < most:
            print(f"{key[0]}: {count} {key[1]}: lower the {most} of tests/prose.tsv (tests/prose.py --lower)")


if __name__ == "__main__":
    main()
