"""Parses XML of OpenStreetMap element by element, for osm_to_gr.py."""

from xml.parsers import expat

from osm_turns import ROLES


def is_deleted(attributes):
    return attributes.get("action") == "delete" or attributes.get("visible") == "false"


class Handler:
    """Gives the elements of a map to a collector, as a parser comes to their tags."""

    def __init__(self, collector):
        self.collector, self.node_keys = collector, collector.node_keys
        self.node, self.way, self.refs, self.members = None, None, [], None
        self.tags, self.remark, self.depth = {}, None, 0

    def start(self, element, attributes):
        self.depth += 1
        if self.depth == 1 and element != "osm":
            raise ValueError(f"the file is of {element}, and not of osm")
        if element == "node":
            self.start_node(attributes)
        elif element == "way" and not is_deleted(attributes):
            self.way, self.refs, self.tags = int(attributes["id"]), [], {}
        elif element == "nd" and self.way is not None:
            self.refs.append(int(attributes["ref"]))
        elif element == "relation" and not is_deleted(attributes):
            self.members, self.tags = [], {}
        elif element == "member" and self.members is not None and attributes.get("role") in ROLES:
            self.members.append((attributes["type"], int(attributes["ref"]), attributes["role"]))
        elif element == "tag" and (self.way is not None or self.members is not None):
            self.tags[attributes["k"]] = attributes["v"].strip()
        elif element == "tag" and self.node is not None and attributes["k"] in self.node_keys:
            self.tags[attributes["k"]] = attributes["v"].strip()
        elif element == "remark":
            self.remark = ""

    def start_node(self, attributes):
        if not is_deleted(attributes):
            self.node, self.tags = int(attributes["id"]), {}
            self.collector.add_node(self.node, float(attributes["lat"]), float(attributes["lon"]))

    def end(self, element):
        self.depth -= 1
        if element == "way" and self.way is not None:
            self.collector.add_way(self.way, self.refs, self.tags)
            self.way = None
        elif element == "node" and self.node is not None:
            self.collector.add_barrier(self.node, self.tags)
            self.node = None
        elif element == "relation" and self.members is not None:
            self.collector.add_relation(self.tags, self.members)
            self.members = None
        elif element == "remark":
            raise ValueError(f"the map was cut off: {' '.join(self.remark.split())}")

    def text(self, text):
        if self.remark is not None:
            self.remark += text


def parser_of(collector):
    """A parser that gives the elements of a map to a collector."""
    parser, handler = expat.ParserCreate(), Handler(collector)
    parser.buffer_text = True
    parser.StartElementHandler, parser.EndElementHandler = handler.start, handler.end
    parser.CharacterDataHandler = handler.text
    return parser
