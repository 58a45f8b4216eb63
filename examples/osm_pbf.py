"""Reads a map in PBF by pyosmium (Debian: python3-pyosmium), for osm_to_gr.py."""

import osmium


class Reader(osmium.SimpleHandler):
    """Gives the elements of a map to a `Handler`, as the parser of XML does."""

    def __init__(self, found):
        super().__init__()
        self.found = found
        found.start("osm", {})

    def give(self, element, attributes):
        self.found.start(element, attributes)
        self.found.end(element)

    def give_tags(self, tags):
        for tag in tags:
            self.give("tag", {"k": tag.k, "v": tag.v})

    def node(self, node):
        if node.location.valid():
            self.found.start("node", {"id": node.id, "lat": node.location.lat, "lon": node.location.lon})
            self.give_tags(node.tags)
            self.found.end("node")

    def way(self, way):
        self.found.start("way", {"id": way.id})
        for node in way.nodes:
            self.give("nd", {"ref": node.ref})
        self.give_tags(way.tags)
        self.found.end("way")

    def relation(self, relation):
        self.found.start("relation", {})
        for member in relation.members:
            kind = {"n": "node", "w": "way", "r": "relation"}[member.type]
            self.give("member", {"type": kind, "ref": member.ref, "role": member.role})
        self.give_tags(relation.tags)
        self.found.end("relation")


def read(found, name):
    """Reads the map of a file. RuntimeError says what is wrong with it."""
    Reader(found).apply_file(name)
