"""Scans a piece of XML of OpenStreetMap by a regular expression, for osm_to_gr.py.

It knows the forms in which osmium, Overpass and the website write nodes, ways and relations, and no other: neither
comments, other elements, other attributes nor entities but the five of XML. What it does not know it leaves alone, and
then a parser reads the piece. A parser takes all that it knows, and finds the same there.
"""

import re
from array import array
from operator import itemgetter

BLANK = r"[ \t\n]*"
NUMBER = r"-?[0-9]{1,18}"
DEGREES = r"-?[0-9]{1,3}(?:\.[0-9]{1,40})?"
PLAIN = r'[^"<&\x00-\x1f\ufffe\uffff]*'
VALUE = rf"{PLAIN}(?:&(?:amp|lt|gt|quot|apos);{PLAIN})*"
ENTITIES = (("&lt;", "<"), ("&gt;", ">"), ("&quot;", '"'), ("&apos;", "'"), ("&amp;", "&"))


def optional(names):
    """Attributes that may be there, in this order."""
    return "".join(rf'(?: {name}="{"true" if name == "visible" else VALUE}")?' for name in names.split())


# The attributes of an element beside its number and place, in the orders of osmium, of Overpass and of the website.
ORDERS = [
    ("version timestamp uid user changeset visible", ""),
    ("", "version timestamp changeset uid user"),
    ("visible version changeset timestamp user uid", ""),
]
TAGS = rf'((?:{BLANK}<tag k="{VALUE}" v="{VALUE}" ?/>)*)'


def forms(before, after):
    """What finds nodes, and what finds elements of each kind; the last group is what is none of them."""
    more = optional(before) + optional(after)
    place = rf'{optional(before)} lat="({DEGREES})" lon="({DEGREES})"{optional(after)}'
    node = rf'<node id="({NUMBER})"{place} ?(?:/>|>{TAGS}{BLANK}</node>)'
    way = rf'<way id="({NUMBER})"{more}>((?:{BLANK}<nd ref="{NUMBER}" ?/>)*){TAGS}{BLANK}</way>'
    member = rf'<member type="(?:node|way|relation)" ref="{NUMBER}" role="{VALUE}" ?/>'
    relation = rf'<relation id="{NUMBER}"{more}>((?:{BLANK}{member})*){TAGS}{BLANK}</relation>'
    return [re.compile(rf"(?:{each}){BLANK}|(.)", re.DOTALL) for each in (node, f"{node}|{way}|{relation}")]


FORMS = [forms(*order) for order in ORDERS]
# The text before the first element of the first level.
HEAD = re.compile(
    rf"""(?:<\?xml[ ]version=(?:"1\.0"|'1\.0')(?:[ ]encoding=(?:"UTF-8"|'UTF-8'|"utf-8"|'utf-8'))?[ ]?\?>)?{BLANK}
    <osm((?:[ ][a-z_]+="{VALUE}")*)>{BLANK}(?:<note>[^<&\x00-\x08\x0b-\x1f\]\ufffe\uffff]*</note>{BLANK})?
    (?:<(?:bounds|meta)(?:[ ][a-z_]+="{VALUE}")*[ ]?/>{BLANK})*""",
    re.VERBOSE,
)
NAME = re.compile(r" ([a-z_]+)=")


def is_head(text):
    """Tells if a text is what comes before the first node, way or relation of a map, in a form that is known."""
    found = HEAD.fullmatch(text)
    elements = re.findall(r"<[a-z]+ [^>]*>", text)
    names = [NAME.findall(element) for element in elements]
    return bool(found) and all(len(set(each)) == len(each) for each in names)


def unescaped(text):
    for entity, letter in ENTITIES if "&" in text else ():
        text = text.replace(entity, letter)
    return text


def tags_of(text):
    words = text.split('"')
    keys, values = words[1::4], words[3::4]
    if "&" in text:
        keys, values = map(unescaped, keys), map(unescaped, values)
    return dict(zip(keys, map(str.strip, values)))


def refs_of(text):
    return [*map(int, text.split('"')[1::2])]


def members_of(text):
    words = text.split('"')
    return [*zip(words[1::6], map(int, words[3::6]), map(unescaped, words[5::6]))]


def found_by(known, text):
    """The groups of the elements of a text; None if it has anything else."""
    first = known.match(text)
    if first and first.lastindex == known.groups:
        return None
    found = known.findall(text)
    return None if any(map(itemgetter(-1), found)) else found


def elements_of(text):
    """The nodes of a piece up to the first other element, and the elements from there on; None if it has others."""
    at = min((at for at in map(text.find, ("<way ", "<relation ")) if at >= 0), default=len(text))
    for node, element in FORMS:
        nodes = found_by(node, text[:at])
        others = None if nodes is None else found_by(element, text[at:])
        if others is not None:
            return nodes, others
    return None


def add_nodes(nodes, collector):
    """Gives nodes to a collector, whose first groups are the number and the place."""
    numbers, latitudes, longitudes = (map(itemgetter(at), nodes) for at in range(3))
    collector.add_nodes(
        array("q", map(int, numbers)), array("d", map(float, latitudes)), array("d", map(float, longitudes))
    )


def scan(text, collector):
    """Gives the elements of a piece to a collector, and tells if it has nothing but known forms of them."""
    found = elements_of(text.lstrip(" \t\n"))
    if found is None:
        return False
    nodes, others = found
    add_nodes(nodes, collector)
    add_nodes([element for element in others if element[0]], collector)
    for node, _, _, tags, _ in nodes:
        if "barrier" in tags:
            collector.add_barrier(int(node), tags_of(tags))
    for node, _, _, node_tags, way, refs, tags, members, relation_tags, _ in others:
        if "barrier" in node_tags:
            collector.add_barrier(int(node), tags_of(node_tags))
        elif way and ('"highway"' in tags or "ferry" in tags):
            collector.add_way(int(way), refs_of(refs), tags_of(tags))
        elif "restriction" in relation_tags:
            collector.add_relation(tags_of(relation_tags), members_of(members))
    return True
