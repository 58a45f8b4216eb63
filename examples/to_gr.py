#!/usr/bin/env python3
"""Writes a graph in the .gr format from a table of roads: to_gr.py ROADS.csv >map.gr

A row is FROM,TO,WEIGHT: two names and a whole number up to 4294967295. Fields may be quoted, and blanks round them and
a byte order mark don't count. Names are numbered from 1 in the order in which they come, and written to names.txt, a
name a line, so that line 3 has the name of vertex 3. Without ROADS.csv the table comes on standard input. It may be
packed by gzip or bzip2, which is seen from its first bytes.

    --header             the first row has the names of the columns
    --delimiter ';'      what stands between fields: one character, `tab`, or `blanks` (blanks or tabs; no quotes,
                         and lines that begin with # are comments)
    --columns 2,3,7      where the two names and the weight stand; all rows have as many columns as the first
    --decimals 2         weights with up to 2 decimals, written without the point: 0.25 becomes 25
    --decimal-comma      decimals come after a comma, as in 0,25
    --weight 1           rows have no weight: each road has this one
    --snap               short for --delimiter blanks --weight 1, as the edge lists of SNAP are
    --both-ways          each road there and back
    --encoding cp1252    the encoding of the table, by any of Python's names, as utf-16; it is UTF-8 if none is given
    --skip-bad FILE      puts rows that are not understood into FILE, as they stand, and makes the graph of the others
    --names FILE         in place of names.txt, which is UTF-8 whatever the table is

A row that is not understood is refused, as `to_gr.py: ROADS.csv:3: expected 3 columns, found 4`: another number of
columns, an empty name, one with a line break in it, a weight that is no number, too large or would have to be rounded.
So are bytes that are no text of the encoding. The first twenty rows are shown, and all are counted. Refused with or
without --skip-bad are a table without roads, a quote that is not closed, and a first row for which other options are
needed, as another delimiter. Then the status is 1, and no file is written.

Names that differ only in Unicode's normal form are one name, which names.txt has in form NFC; standard error says so.

If Python has numpy, fast_tables.py beside this script reads most rows by it. The graph and all that is said are the
same without.
"""

import argparse
import bz2
import codecs
import contextlib
import csv
import gzip
import io
import os
import re
import sys
import unicodedata
import zlib
from array import array
from collections import namedtuple
from operator import itemgetter

MOST = 4294967295  # the greatest weight that obim_query reads
SHOWN = 20  # bad rows of which the reason is shown
LEAST_BLOCK, MOST_BLOCK = 1 << 16, 1 << 22  # bytes that are looked at together
UTF_16 = {
    codecs.BOM_UTF32_LE: "utf-32", codecs.BOM_UTF32_BE: "utf-32",
    codecs.BOM_UTF16_LE: "utf-16", codecs.BOM_UTF16_BE: "utf-16",
}
OTHER_FILES = {
    b"PK\x03\x04": "a zip file, or a spreadsheet: save it as CSV",
    b"\xfd7zXZ\0": "packed by xz: xz -dc FILE | to_gr.py",
    b"\x28\xb5\x2f\xfd": "packed by zstd: zstd -dc FILE | to_gr.py",
}

Shape = namedtuple("Shape", "delimiter header columns weight decimals point", defaults=(",", False, None, None, 0, "."))


class Refused(Exception):
    """What is wrong with the input, in words for the user."""


def unpacked(stream):
    """The stream, unpacked if its first bytes say that it is packed."""
    first = stream.peek(32)
    if first.startswith(b"\x1f\x8b"):
        return gzip.open(stream)
    return bz2.open(stream) if first.startswith(b"BZh") else stream


def check_kind(first, name):
    """Refuses a file that is packed in another way."""
    for begin, what in OTHER_FILES.items():
        if first.startswith(begin):
            raise Refused(f"{name}: this is {what}")


def check_utf_8(first, name):
    """Refuses what begins as a text of UTF-16, with a byte order mark or without: most of each second byte is zero."""
    found = next((encoding for mark, encoding in UTF_16.items() if first.startswith(mark)), None)
    for at, encoding in ((1, "utf-16-le"), (0, "utf-16-be")):
        if found is None and len(first) > 7 and first[at::2].count(0) * 2 > len(first[at::2]):
            found = encoding
    if found:
        raise Refused(f"{name}: not UTF-8 text: perhaps --encoding {found}")


class Recoded:
    """A stream of another encoding as bytes of UTF-8. Bytes that are no text stay, so they are no UTF-8 either."""

    def __init__(self, stream, encoding):
        self.text = io.TextIOWrapper(stream, encoding, errors="surrogateescape", newline="")

    def read(self, size):
        return self.text.read(size).encode("utf-8", "surrogateescape")


class Lines:
    """The lines of a table: one after the other, or a block of them at once."""

    def __init__(self, stream, name, encoding=None):
        self.name, self.encoding = name, encoding or "UTF-8"
        check_kind(stream.peek(32), name)
        self.stream = unpacked(stream)
        if encoding:
            self.stream = Recoded(self.stream, encoding)
        self.left, self.at, self.is_all = b"", 0, False  # bytes that were read, and from where they are not taken
        self.waiting, self.row, self.number = 0, [], 0  # how many lines of a block wait; those of a row; lines taken
        self.may_be_odd = False  # whether there were bytes that are no text, or carriage returns inside lines
        self.read_more()
        if not encoding:
            check_utf_8(self.left[:4096], name)
        if self.left.startswith(codecs.BOM_UTF8):
            self.at = len(codecs.BOM_UTF8)

    def read_more(self):
        try:
            more = self.stream.read(MOST_BLOCK)
        except UnicodeError as fault:
            raise Refused(f"{self.name}: not {self.encoding} text: {getattr(fault, 'reason', fault)}") from None
        except (EOFError, zlib.error, OSError) as fault:
            if getattr(fault, "errno", None) is not None:
                raise
            raise Refused(f"{self.name}: the packed file is damaged: {fault}") from None
        self.left, self.at, self.is_all = self.left[self.at :] + more, 0, not more

    def block(self, size):
        """The next whole lines that are not taken, some `size` bytes of them, and at least one line if there is one."""
        if len(self.left) - self.at < size and not self.is_all:
            self.read_more()
        end = self.left.rfind(b"\n", self.at, self.at + size) + 1
        while end <= self.at:
            end = self.left.find(b"\n", self.at) + 1
            if not end and self.is_all:
                end = len(self.left)
                break
            if not end:
                self.read_more()
        return self.left[self.at : end]

    def is_done(self):
        return not self.block(LEAST_BLOCK)

    def take(self, block, lines=0):
        self.at += len(block)
        self.number += lines

    def __iter__(self):
        while block := self.block(LEAST_BLOCK):
            self.take(block)
            try:
                text = block.decode()
            except UnicodeDecodeError:
                text, self.may_be_odd = block.decode("utf-8", "surrogateescape"), True
            if block.count(b"\r") != block.count(b"\r\n"):
                self.may_be_odd = True
            self.waiting = text.count("\n") + (not text.endswith("\n"))
            for line in io.StringIO(text, newline="\n"):
                self.waiting -= 1
                self.number += 1
                self.row.append(line)
                yield line

    def begin(self):
        """The number of the first line of the last row."""
        return self.number - len(self.row) + 1

    def fault(self):
        """The reason why the lines of the last row are no text, or None."""
        text = "".join(self.row)
        if "\r" in text and any("\r" in each.rstrip("\r\n") for each in self.row):
            return "a carriage return inside the line: perhaps tr '\\r' '\\n'"
        if not text.isascii() and re.search("[\udc80-\udcff]", text):
            other = "cp1252" if self.encoding == "UTF-8" else "utf-8"
            return f"not {self.encoding} text: perhaps --encoding {other}"
        return None


def rows(lines, delimiter):
    """The rows of a table that aren't blank, as (fields, what is wrong or None)."""
    if delimiter == "blanks":
        for text in lines:
            fault = lines.fault() if lines.may_be_odd else None
            if fault or text.strip() and not text.lstrip().startswith("#"):
                yield text.split(), fault
            lines.row.clear()
        return
    # The csv module takes blanks before a quote, and refuses those after it.
    blanks = " " if delimiter == "\t" else r" \t"
    closed = re.compile(rf'("(?:[^"]|"")*")[{blanks}]+(?=[{re.escape(delimiter)}\r\n]|$)')
    unquoted = (closed.sub(r"\1", text) if '"' in text else text for text in lines)
    reader = csv.reader(unquoted, delimiter=delimiter, skipinitialspace=True, strict=True)
    while True:
        fields, reason = (), None
        try:
            fields = [field.strip() for field in next(reader)]
        except StopIteration:
            return
        except csv.Error as fault:
            reason = str(fault)
            if "field larger" in reason or "unexpected end" in reason:
                # What comes after it was read as a part of the field, so it can't be set aside as a row.
                reason = "a quote is not closed" if '"' in "".join(lines.row) else reason
                raise Refused(f"{lines.name}:{lines.begin()}: {reason}") from None
        if fields not in ([], [""]):
            yield fields, lines.may_be_odd and lines.fault() or reason
        lines.row.clear()


def number_cure(text, decimals, point):
    """The options by which a weight that is no number would be one."""
    found = re.fullmatch("[0-9]*([.,])([0-9]{1,9})", text)
    if not found or found[1] == point and decimals:
        return ""
    words = [] if decimals else [f"--decimals {len(found[2])}"]
    if found[1] != point:
        words.append("--decimal-comma" if point == "." else "without --decimal-comma")
    return f": perhaps {' '.join(words)}"


def whole_weight(text, decimals, point="."):
    """The whole number of a weight, times 10 to the power of decimals. ValueError says why there is none."""
    if decimals == 0 and len(text) < 10 and text.isascii() and text.isdigit():
        return int(text)  # most weights, quickly
    whole, has_point, part = text.partition(point) if decimals else (text, "", "")
    digits = whole + part
    if not (digits.isascii() and digits.isdigit()) or (has_point and not part):
        kind = "whole" if decimals == 0 else "decimal"
        raise ValueError(f"weight {text!r} is no {kind} number{number_cure(text, decimals, point)}")
    kept = (whole + part[:decimals].ljust(decimals, "0")).lstrip("0") or "0"
    if len(kept) > 10 or int(kept) > MOST:
        raise ValueError(f"weight {text} is more than {MOST}" + (f" with {decimals} decimals" if decimals else ""))
    if part[decimals:].strip("0"):
        many = len(part.rstrip("0"))
        cure = f": perhaps --decimals {many}" if many < 10 else ""
        raise ValueError(f"weight {text} has more than {decimals} decimals{cure}")
    return int(kept)


def check_name(name):
    """names.txt has a name a line."""
    if not name:
        raise ValueError("a name is empty")
    if not name.isprintable() and not {"\n", "\r", "\0"}.isdisjoint(name):
        raise ValueError(f"name {name!r} has a line break or a zero byte in it")


class Table:
    """The roads of a table, one after the other. What is wrong with a row goes to `bad`, as (line, reason, text)."""

    def __init__(self, lines, shape, bad=None):
        self.lines, self.shape, self.bad = lines, shape, bad or self.refuse
        usual = 3 if shape.weight is None else 2
        self.width = None if shape.columns else usual
        self.places = shape.columns or range(usual)
        self.pick = itemgetter(*self.places)
        self.is_first = True

    def refuse(self, line, reason, _text=""):
        raise Refused(f"{self.lines.name}:{line}: {reason}")

    def weigh(self, text):
        return whole_weight(text, self.shape.decimals, self.shape.point)

    def check_header(self, text):
        """Refuses a first row that is a header where none is announced, or the other way round."""
        try:
            self.weigh(text)
        except ValueError:
            if not self.shape.header and not re.search("[0-9]", text):
                reason = f"weight {text!r} is no number: if this is a header, call with --header"
                self.refuse(self.lines.begin(), reason)
        else:
            if self.shape.header:
                self.refuse(self.lines.begin(), "this is no header, its weight is a number: leave --header out")

    def check_width(self, found):
        """Refuses another number of columns. In the first row options may be wrong."""
        self.width = self.width or max(found, *(place + 1 for place in self.places))
        if found == self.width:
            return
        reason = f"expected {self.width} columns, found {found}"
        if self.is_first:
            text = "".join(self.lines.row)
            for mark, word in ((";", "';'"), ("\t", "tab"), (",", "','"), ("|", "'|'"), (None, "blanks")):
                if mark != self.shape.delimiter and found < self.width <= len(text.split(mark)):
                    self.refuse(self.lines.begin(), f"{reason}: perhaps --delimiter {word}")
            if self.shape.delimiter == "," and re.search(r"[0-9],[0-9]+\s*$", text):
                reason += ": perhaps a decimal comma, and the weight needs quotes"
            elif found > self.width:
                reason += ": perhaps --columns"
            elif found == 2 and not self.shape.columns:
                reason += ": perhaps --weight 1"
        raise ValueError(reason)

    def road(self, fields):
        """The names and the weight of a row, or None for a header."""
        if len(fields) != self.width or self.is_first:
            self.check_width(len(fields))
        tail, head, *own = self.pick(fields)
        if self.is_first:
            if own:
                self.check_header(own[0])
            if self.shape.header:
                return None
        check_name(tail)
        check_name(head)
        return tail, head, self.weigh(own[0]) if own else self.shape.weight

    def __iter__(self):
        for fields, reason in rows(self.lines, self.shape.delimiter):
            try:
                if reason:
                    raise ValueError(reason)
                road = self.road(fields)
            except ValueError as fault:
                # A quote can make one row of many lines, so it is said where the row ends.
                end = f" (to line {self.lines.number})" if len(self.lines.row) > 1 else ""
                self.bad(self.lines.begin(), f"{fault}{end}", "".join(self.lines.row))
            else:
                if road:
                    yield road
            self.is_first = False


def roads(stream, name):
    """Each road of a table as (from, to, weight), names in form NFC. Who calls has no options, so none is said."""
    try:
        for tail, head, weight in Table(Lines(stream, name), Shape()):
            yield unicodedata.normalize("NFC", tail), unicodedata.normalize("NFC", head), weight
    except Refused as fault:
        raise Refused(str(fault).partition(": perhaps")[0]) from None


class Numbers(dict):
    """The number of each name, from 1 in the order in which they come. A name has one number however it is spelled."""

    def __init__(self):
        super().__init__()
        self.names, self.composed, self.joined = [], {}, 0

    def __missing__(self, spelling):
        name = unicodedata.normalize("NFC", spelling)
        number = self.composed.get(name) or (None if name == spelling else self.get(name))
        if number is None:
            self.names.append(name)
            number = len(self.names)
        else:
            self.joined += 1
        if name != spelling:
            self.composed[name] = number
        self[spelling] = number
        return number


class BadRows:
    """Counts the rows that were not understood, and keeps the first reasons. With a file, rows go there."""

    def __init__(self, name, out=None):
        self.name, self.out, self.count, self.reasons = name, out, 0, []

    def add(self, line, reason, text):
        self.count += 1
        if len(self.reasons) < SHOWN:
            self.reasons.append(f"{self.name}:{line}: {reason}")
        if self.out:
            self.out.write(text if text.endswith("\n") else f"{text}\n")

    def report(self, what):
        """The reasons, and how many rows there are if they are not one."""
        total = f"{self.name}: {self.count} bad row{'s' * (self.count > 1)}"
        if self.count > SHOWN:
            total += f", of which {SHOWN} are shown"
        return [*self.reasons, f"{total}: {what}"]


@contextlib.contextmanager
def finished_only(name, encoding="utf-8"):
    """A file to write, which is there by its name only once all that comes with it is written. No encoding: of bytes."""
    is_device = name.startswith("/dev/") or (os.path.exists(name) and not os.path.isfile(name))
    path = name if is_device else os.path.realpath(name)
    unfinished = path if is_device else f"{path}.{os.getpid()}.unfinished"
    try:
        how = {"encoding": encoding, "errors": "surrogateescape", "newline": ""} if encoding else {}
        with open(unfinished, "w" if encoding else "wb", **how) as out:
            yield out
        if not is_device:
            os.replace(unfinished, path)
    except BaseException as fault:
        if isinstance(fault, OSError) and fault.filename == unfinished:
            fault.filename = name
        if not is_device:
            with contextlib.suppress(FileNotFoundError):
                os.remove(unfinished)
        raise


def write_lines(out, name, lines):
    try:
        out.writelines(lines)
        out.flush()
    except OSError as fault:
        with contextlib.suppress(OSError):
            out.close()  # which would fail again later, and not say of which file
        fault.filename = fault.filename or name
        raise


def write_graph(count, many, arcs, beside, comments=(), encoding="utf-8"):
    """Writes a graph to standard output, and files beside it, as (name, lines), that are there once all is written.

    Comments come first, each in a line. Without an encoding lines are bytes.
    """
    if sys.stdout is None:
        raise Refused("standard output is closed")
    with contextlib.ExitStack() as files:
        for name, lines in beside:
            write_lines(files.enter_context(finished_only(name, encoding)), name, lines)
        for comment in comments:
            print("c", comment)
        print("p sp", count, many)
        sys.stdout.flush()
        out = sys.stdout if encoding else sys.stdout.buffer
        out.writelines(arcs)
        out.flush()


def end_quietly(name, fault=None, status=1):
    """Ends with a status and no more than is wrong. What standard output still holds goes nowhere."""
    os.dup2(os.open(os.devnull, os.O_WRONLY), 1)
    if fault is not None:
        say(name, str(fault).split("\n"))
    sys.exit(status)


def say(name, lines):
    for line in lines:
        print(f"{name}: {line}", file=sys.stderr)


def run(name, main, status=1):
    """Calls main. What a user can mend is said in one line, not by a traceback, and the script ends with the status."""
    try:
        main()
    except Refused as fault:
        end_quietly(name, fault, status)
    except BrokenPipeError:
        end_quietly(name, status=status)
    except OSError as fault:
        end_quietly(name, f"{fault.filename or 'standard input or output'}: {fault.strerror or fault}", status)
    except MemoryError:
        end_quietly(name, "out of memory", status)
    except KeyboardInterrupt:
        sys.exit(130)


class Arguments(argparse.ArgumentParser):
    """Its help is the text at the head of a script, and what is wrong with the words comes in one line."""

    def __init__(self, text):
        super().__init__(allow_abbrev=False)
        self.text = text

    def format_help(self):
        return self.text

    def error(self, message):
        raise Refused(f"{message} (see --help)")


def delimiter_of(text):
    if text in ("tab", "\\t"):
        return "\t"
    if text != "blanks" and (len(text) != 1 or text.isalnum() or text in '" .\r\n'):
        raise argparse.ArgumentTypeError(f"{text!r} is neither one character, nor tab or blanks")
    return text


def columns_of(text):
    if not re.fullmatch(r"[1-9][0-9]?(,[1-9][0-9]?){1,2}", text):
        raise argparse.ArgumentTypeError(f"{text!r} is not two or three places from 1 to 99, as 2,3,7")
    return [int(place) - 1 for place in text.split(",")]


def weight_of(text):
    try:
        return whole_weight(text, 0)
    except ValueError as fault:
        raise argparse.ArgumentTypeError(str(fault)) from None


def encoding_of(text):
    try:
        "a".encode(text)
    except (LookupError, ValueError):
        raise argparse.ArgumentTypeError(f"Python knows no encoding {text!r}, as utf-16 or cp1252") from None
    return None if codecs.lookup(text).name == "utf-8" else text


def check_files(parser, options):
    """Refuses to write a file over the table, or two over one another."""
    if options.skip_bad and not options.skip_bad.startswith("/dev/"):
        for other in (options.table, options.names):
            if other and os.path.realpath(other) == os.path.realpath(options.skip_bad):
                parser.error(f"--skip-bad would write over {other}")


def parse():
    parser = Arguments(__doc__)
    parser.add_argument("table", nargs="?")
    parser.add_argument("--header", action="store_true")
    parser.add_argument("--delimiter", type=delimiter_of)
    parser.add_argument("--columns", type=columns_of)
    parser.add_argument("--decimals", type=int, choices=range(10), default=0)
    parser.add_argument("--decimal-comma", action="store_true")
    parser.add_argument("--weight", type=weight_of)
    parser.add_argument("--snap", action="store_true")
    parser.add_argument("--both-ways", action="store_true")
    parser.add_argument("--encoding", type=encoding_of)
    parser.add_argument("--skip-bad")
    parser.add_argument("--names", default="names.txt")
    options = parser.parse_args()
    if options.snap:
        if options.delimiter not in (None, "blanks"):
            parser.error("--snap has blanks or tabs between fields: leave --delimiter out")
        options.delimiter = "blanks"
        options.weight = 1 if options.weight is None else options.weight
    if options.columns and len(options.columns) != (3 if options.weight is None else 2):
        parser.error("--columns has three places, or two if each road has the same weight")
    if options.decimal_comma and not options.decimals:
        parser.error("--decimal-comma says nothing of whole numbers: call with --decimals too")
    check_files(parser, options)
    return options


def by_numpy():
    """The module fast_tables.py, or None where it or numpy is not there."""
    sys.dont_write_bytecode = True
    try:
        import fast_tables
    except ImportError:
        return None
    return fast_tables


def read_roads(table, numbers, both_ways):
    """The tails, heads and weights of all roads, one after the other, by the numbers of names."""
    arcs, reader, is_asked = array("I"), None, False
    for tail, head, weight in table:
        tail, head = numbers[tail], numbers[head]
        arcs.extend((tail, head, weight, head, tail, weight) if both_ways else (tail, head, weight))
        if table.lines.waiting or table.lines.is_done():
            continue
        if not is_asked and (fast := by_numpy()):
            reader = fast.Reader(table, numbers, both_ways)
        is_asked = True
        for part in reader.roads(LEAST_BLOCK, MOST_BLOCK) if reader else ():
            arcs.frombytes(part)
    return arcs


def arc_lines(arcs):
    """The lines of arcs, some thousands together."""
    if len(arcs) > LEAST_BLOCK and (fast := by_numpy()):
        yield from fast.arc_lines(arcs)
        return
    for at in range(0, len(arcs), 3 * 8192):
        each = iter(arcs[at : at + 3 * 8192])
        yield "".join(map("a %d %d %d\n".__mod__, zip(each, each, each)))


def convert():
    options = parse()
    name = options.table or "standard input"
    numbers = Numbers()
    with contextlib.ExitStack() as files:
        stream = files.enter_context(open(options.table or 0, "rb"))
        encoding = options.encoding or "utf-8"
        aside = files.enter_context(finished_only(options.skip_bad, encoding)) if options.skip_bad else None
        bad = BadRows(name, aside)
        shape = (options.delimiter or ",", options.header, options.columns, options.weight, options.decimals)
        shape = Shape(*shape, "," if options.decimal_comma else ".")
        table = Table(Lines(stream, name, options.encoding), shape, bad.add)
        arcs = read_roads(table, numbers, options.both_ways)
        if bad.count and not aside:
            report = bad.report("--skip-bad FILE sets them aside")
            raise Refused("\n".join(report if bad.count > 1 else bad.reasons))
        if bad.count:
            say("to_gr.py", bad.report(f"set aside in {options.skip_bad}"))
        if not arcs:
            raise Refused(f"{name}: no roads")
        if numbers.composed:
            many = f"names in another Unicode form: {len(numbers.composed)}, now in NFC"
            say("to_gr.py", [f"{name}: {many}; spellings joined to another: {numbers.joined}"])
        lines = (f"{each}\n" for each in numbers.names)
        write_graph(len(numbers.names), len(arcs) // 3, arc_lines(arcs), [(options.names, lines)])


if __name__ == "__main__":
    run("to_gr.py", convert)
