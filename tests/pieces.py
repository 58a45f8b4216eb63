#!/usr/bin/env python3
"""Compares what osm_to_gr.py writes of maps that it reads in pieces with what it writes if one parser reads the whole.

pieces.py [MANY] draws MANY maps, 120 where none is given, in the forms of several programs, many of them damaged or cut
off. Each is read by one parser, then in small pieces by one process, and some by three. The graph, the files beside it
and what is said have to be the same bytes. Prints the first difference.
"""

import contextlib
import io
import os
import random
import re
import sys
import tempfile

sys.dont_write_bytecode = True
import turns  # which finds the examples
import osm_blocks
import osm_graph
import osm_parts
import osm_to_gr
import processes
import to_gr

FILES = ("nodes.txt", "places.txt", "lines.txt", "ways.txt")
OPTIONS = [
    [],
    ["--turns", "--ways", "ways.txt"],
    ["--join", "--places", "places.txt", "--ways", "ways.txt"],
    ["--turns", "--uturns", "3", "--weight", "seconds", "--ways", "ways.txt"],
]
DECLARATION = '<?xml version="1.0" encoding="UTF-8"?>\n'
HEADS = [
    "<osm>", DECLARATION + '<osm version="0.6" generator="a" >',
    DECLARATION + '<osm version="0.6">\n<note>A map.</note>',
    DECLARATION.replace('"', "'") + '<osm version="0.6">\n  <bounds minlat="1" minlon="1" maxlat="2" maxlon="2"/>',
    DECLARATION.replace("UTF-8", "ISO-8859-1") + "<osm>", '<osm version="0.6" version="0.7">', "<osm><bounds/>&amp;",
]
# What stands beside a number in the forms of osmium, of Overpass (behind the place) and of the website.
BESIDE = [
    ' version="3" timestamp="2021-05-06T07:08:09Z" uid="4" user="A &amp; B" changeset="5"', "",
    ' visible="true" version="1"',
]
DAMAGE = ["&", "<", "\x01", "\r", "\r\n", '"', "é", "\ufffe", "x", "&#65;", "&auml;", "<!-- <node -->", "]]>"]
DAMAGE += ["</osm>", ' id="7"']

NODE = '<node id="5" lat="1" lon="2"/>'
ENDS = ["</osm>\n\n", "</osm><!-- -->", f"</osm>\n{NODE}", f"</osm>\n{NODE}</osm>", "</osmm>"]


def form_of(chance, text):
    """The map in the form of another program, or with what no program writes."""
    beside = chance.choice(BESIDE)
    if chance.random() < 0.3:
        text = re.sub(r'(<(?:node|way|relation) id="-?\d+")', lambda found: found[1] + beside, text)
    if chance.random() < 0.2:
        text = re.sub(r'(<node [^>]*?)(/?)>', r'\1 version="2" uid="9"\2>', text)
    if chance.random() < 0.2:
        text = text.replace("/>", " />")
    if chance.random() < 0.2:
        barrier = r'<node \1><tag k="barrier" v="gate"/></node>'
        text = re.sub(r"<node ([^>]*)/>", barrier, text, count=chance.randrange(5))
    text = text.replace("<osm>", chance.choice(HEADS[:4]) if chance.random() < 0.8 else chance.choice(HEADS), 1)
    text = text.replace("Elm Street", "Elm &lt;&apos;&quot;&gt; &amp;lt;")
    if chance.random() < 0.1:
        text = text.replace("</osm>", chance.choice(ENDS))
    if chance.random() < 0.05:
        text = re.sub('lat="', 'lat="9', text, count=1)
    at = chance.randrange(len(text))
    if chance.random() < 0.2:
        text = text[:at] + chance.choice(DAMAGE) + text[at + chance.randrange(2) :]
    return text[:at] if chance.random() < 0.05 else text


def written(options):
    """All that is written of the map and said."""
    for name in FILES:
        with contextlib.suppress(FileNotFoundError):
            os.remove(name)
    sys.argv = ["osm_to_gr.py", *options, "map.osm"]
    out, error = io.TextIOWrapper(io.BytesIO(), encoding="utf-8"), io.StringIO()
    with contextlib.redirect_stdout(out), contextlib.redirect_stderr(error):
        try:
            osm_to_gr.convert()
        except to_gr.Refused as fault:
            print("refused:", fault, file=sys.stderr)
    out.flush()
    texts = [out.buffer.getvalue().decode(), error.getvalue()]
    for name in filter(os.path.exists, FILES):
        with open(name, encoding="utf-8") as file:
            texts.append(f"{name}\n{file.read()}")
    return texts


def answer_once(connection, ask):
    connection.send(ask(connection.recv_bytes()))


def send_first(connection, make, shares):
    connection.send(make(*shares[0]))


class Counted:
    """Counts how many pieces the regular expression reads."""

    def __init__(self, scan):
        self.scan, self.pieces, self.known = scan, 0, 0

    def __call__(self, text, collector):
        is_known = self.scan(text, collector)
        self.pieces += 1
        self.known += is_known
        return is_known


def check(seed, is_head):
    chance = random.Random(seed)
    with open("map.osm", "w", encoding="utf-8", newline="") as out:
        out.write(form_of(chance, turns.Drawn(chance).text(chance)))
    options = chance.choice(OPTIONS)
    osm_blocks.is_head = lambda text: False
    wanted = written(options)
    osm_blocks.is_head = is_head
    # In some runs the processes end after their first answer.
    whole = processes.answer, processes.send_shares
    for count in (1, 3) if seed % 3 == 0 else (1,):
        processes.processor_count = lambda: count
        processes.answer, processes.send_shares = (answer_once, send_first) if seed % 6 == 3 else whole
        found = written(options)
        if found != wanted:
            raise AssertionError(f"map {seed} by {count} processes, {options}: {found}, wanted {wanted}")
    processes.answer, processes.send_shares = whole
    return "refused:" in wanted[1]


def main():
    many = int(sys.argv[1]) if len(sys.argv) > 1 else 120
    osm_blocks.PIECE, osm_graph.ROADS, osm_graph.LINES, osm_parts.MANY = 300, 2, 3, 2
    osm_blocks.scan = Counted(osm_blocks.scan)
    is_head, refused = osm_blocks.is_head, 0
    with tempfile.TemporaryDirectory() as folder:
        os.chdir(folder)
        for seed in range(many):
            try:
                refused += check(seed, is_head)
            except AssertionError as fault:
                print(str(fault)[:3000])
                return
        os.chdir("/")
    if not many // 8 < refused < many // 2 or osm_blocks.scan.known < osm_blocks.scan.pieces // 2:
        print(f"{refused} of {many} maps are refused, {osm_blocks.scan.known} of {osm_blocks.scan.pieces} pieces known")


if __name__ == "__main__":
    main()
