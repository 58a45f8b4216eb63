"""functions.py CRATE..: prints the functions of each crate, by the names that a check prints, and where they stand.

It follows braces and passes by comments, strings and characters, which is enough for a source that `rt fmt` has laid out.
"""

import re
import sys
from dataclasses import dataclass
from pathlib import Path

# Of an array's type, as `[u32; 3]`, the semicolon ends no item.
TOKEN = re.compile(
    r"""//[^\n]*|/\*.*?\*/|b?r(\#*)".*?"\1|b?"(?:\\.|[^"\\])*"|b?'(?:\\.[^']*|[^'\\])'|\[[^][{}]*;[^][{}]*\]|[{};]|'\w+""",
    re.DOTALL,
)
FUNCTION = re.compile(r"\bfn\s+(\w+)")
CLAUSE = re.compile(r"\b(requires|ensures|ghost|forgets|measure|invariant)\*?(\s+\w+)?(\s*:)?\s*$")
CYCLE = re.compile(r"#\[cycle\((\w+)\)\]")
TYPE = re.compile(r"^\s*(?:pub(?:\([^)]*\))? )?(?:struct|enum|union)\s+(\w+)", re.MULTILINE)
# What holds items, and so ends the text of the item before it.
HOLDERS = ("impl", "mod", "trait")


@dataclass(frozen=True)
class Function:
    """A function: its name and module, its cycle, and the places of its head, its body and its end in the text of a file."""

    name: str
    module: tuple
    file: str
    head: int
    body: int
    end: int
    lines: range
    cycle: str
    is_constant: bool
    # In a trait or a macro, or in an impl whose name is not plain: the check's name of it is not known here.
    is_nameless: bool


@dataclass(frozen=True)
class Block:
    """Braces that are open: what they are, its name, and the places of its head and of the brace."""

    kind: str
    name: str
    head: int
    brace: int


def base_of(path):
    """The last name of a type, as `Vec` of `&'a mut std::vec::Vec<T>`."""
    found = re.match(r"&?(?:'\w+\s+)?(?:mut\s+)?(?:dyn\s+)?([\w:]+)", path.strip())
    return found[1].split("::")[-1] if found else path.strip()


def split_generics(text):
    """A text after the generics that it begins with, and these."""
    depth = 0
    for at, letter in enumerate(text):
        depth += letter == "<"
        depth -= letter == ">" and text[at - 1] != "-"
        if depth == 0:
            return text[at + 1 :].strip() if text.startswith("<") else text, text[: at + 1]
    return text, ""


def implementor_of(header):
    """Of the text after `impl` the type, and what a check puts after its name. None for that if it is not plain."""
    text, own = split_generics(header)
    text = re.split(r"\bwhere\b", text)[0]
    found = re.match(r"(.+?)\s+for\s+(.+)", text)
    trait, named = (found[1], found[2]) if found else ("", text)
    parameters = set(re.findall(r"\w+", own)) | {"_"}
    arguments = [word for word in re.findall(r"\w+", named.partition("<")[2]) if word not in parameters]
    if trait == "Drop" or named.startswith("&") or trait and arguments:
        return base_of(named), None
    if not trait:
        return base_of(named), "".join(f"+{word}" for word in arguments)
    # Of `From<route_walks::Memory>` it is `FromRoute_walksMemory`.
    of = re.findall(r"[\w:]+", trait.partition("<")[2])[:1]
    return base_of(named), base_of(trait) + "".join(part[:1].upper() + part[1:] for path in of for part in path.split("::"))


def opened(text, head, brace, stack):
    """The block that this brace opens, by the text before it."""
    if stack and stack[-1].kind not in HOLDERS:
        return Block("block", "", head, brace)
    header = re.sub(r"//[^\n]*", "", text[head:brace])
    function = FUNCTION.search(header)
    if function:
        kind = "clause" if CLAUSE.search(header.rstrip()) else "fn"
        return Block(kind, function[1], head, brace)
    for kind, form in (("impl", r"\bimpl\b(.*)"), ("mod", r"\bmod\s+(\w+)\s*$"), ("trait", r"\btrait\s+(\w+)")):
        found = re.search(form, header, re.DOTALL)
        if found and not re.search(r"\b(struct|enum|macro_rules)\b", header):
            return Block(kind, " ".join(found[1].split()), head, brace)
    return Block("other", "", head, brace)


def blocks_of(text):
    """Each function of a text, as its block, its end and the blocks around it."""
    stack, head = [], 0
    for token in TOKEN.finditer(text):
        if token[0] == ";" and (not stack or stack[-1].kind in HOLDERS):
            head = token.end()
        elif token[0] == "{":
            stack.append(opened(text, head, token.start(), stack))
            if stack[-1].kind in HOLDERS:
                head = token.end()
        elif token[0] == "}" and stack:
            block = stack.pop()
            if block.kind == "fn":
                yield block, token.end(), tuple(stack)
            if block.kind not in ("block", "clause"):
                head = token.end()


def module_of(file):
    """The module of a file below src/."""
    parts = Path(file).with_suffix("").parts[1:]
    return parts[:-1] if parts[-1] in ("lib", "main", "mod") else parts


def function_of(file, text, types, found):
    """A function of a file, from what `blocks_of` gives. A method without a trait stands where its type is declared."""
    block, end, around = found
    module, is_nameless = module_of(file), any(outer.kind not in ("mod", "impl") for outer in around)
    for outer in around:
        if outer.kind == "mod":
            module = (*module, outer.name)
        elif outer.kind == "impl":
            own, more = implementor_of(outer.name)
            place = module if " for " in outer.name else types.get(own, module)
            module, is_nameless = (*place, own + (more or "")), is_nameless or more is None
    head = text[block.head : block.brace]
    cycle = CYCLE.search(head)
    first = block.head + len(head) - len(head.lstrip())
    lines = range(text.count("\n", 0, first) + 1, text.count("\n", 0, end) + 2)
    is_constant = bool(re.search(r"\bconst\s+fn\b", head))
    name = "::".join((*module, block.name))
    return Function(name, module, file, block.head, block.brace, end, lines, cycle and cycle[1], is_constant, is_nameless)


class Functions:
    """The functions of a crate's sources."""

    def __init__(self, folder):
        """Reads the sources of the crate in this folder."""
        paths = sorted(path for path in folder.glob("src/**/*.rt"))
        self.texts = {str(path.relative_to(folder)): path.read_text(encoding="utf-8") for path in paths}
        types = {}
        for file, text in self.texts.items():
            for name in TYPE.findall(text):
                types.setdefault(name, module_of(file))
        self.all = [function_of(file, text, types, found) for file, text in self.texts.items() for found in blocks_of(text)]

    def around(self, file, old):
        """The function in whose body this text of a file is, or None."""
        at = self.texts.get(file, "").find(old)
        fit = [one for one in self.all if one.file == file and one.body <= at < one.end]
        return min(fit, key=lambda one: one.end - one.body) if fit else None

    def without_bodies(self, file):
        """The text of a file in which bodies are left out: what other functions can know of it."""
        text, at, kept = self.texts[file], 0, []
        functions = [one for one in self.all if one.file == file and not one.is_constant]
        for one in sorted(functions, key=lambda one: one.body):
            if one.body >= at:
                kept.append(text[at : one.body])
                at = one.end
        return "".join([*kept, text[at:]])


def main():
    for crate in sys.argv[1:]:
        for one in Functions(Path("crates", crate)).all:
            said = f" in the cycle {one.cycle}" if one.cycle else " without a name" if one.is_nameless else ""
            print(f"{crate}::{one.name}: {one.file}:{one.lines.start}-{one.lines.stop - 1}{said}")


if __name__ == "__main__":
    main()
