"""Reads and writes the plain stretches of large tables by numpy, for to_gr.py beside it.

What it does not understand at a glance, as a quote, a blank beside a name or a wrong row, it leaves to to_gr.py. So all
refusals come from there, and what it does read gets the same numbers in the same order.
"""

import numpy

LONGEST = 64  # bytes of a name or weight
FIELD = 131072  # the characters that the csv module takes in a field
# By length, the bytes of a word of eight that belong to a text.
MASKS = numpy.frombuffer(b"".join(b"\xff" * many + bytes(8 - many) for many in range(9)), "u8")
ROUNDS = 16  # of putting texts into slots
MOST_KNOWN = 1 << 20  # names that are found without a look at Numbers
MIX = numpy.uint64(0x9E3779B97F4A7C15)  # an odd number whose bits look random
MULTIPLIERS = MIX ** numpy.arange(1, LONGEST // 8 + 1, dtype="u8")


def plain_block(block, delimiter):
    """The block with line feeds alone at the ends of its lines, and the byte between fields, or None if it is odd."""
    if b"\r" in block:
        block = block.replace(b"\r\n", b"\n")
    if b'"' in block or b"\r" in block or b"\0" in block:
        return None
    if not block.endswith(b"\n"):
        block += b"\n"
    if delimiter == "blanks":
        # Other blanks than one kind, and those of Unicode, would part fields too.
        delimiter = " " if b" " in block else "\t"
        others = bytes(set(range(33)) - {10, ord(delimiter)})
        if not block.isascii() or len(block.translate(None, others)) != len(block):
            return None
        if block.startswith(b"#") or b"\n#" in block:
            return None
    elif not block.isascii():
        try:
            block.decode()
        except UnicodeDecodeError:
            return None
    return (block, ord(delimiter)) if ord(delimiter) < 128 else None


def fields_of(data, delimiter, width):
    """The places where each field of each row begins and ends, or None if a row has another number of fields."""
    ends = numpy.flatnonzero((data == delimiter) | (data == 10))
    if len(ends) % width:
        return None
    starts = numpy.concatenate(([0], ends[:-1] + 1)).reshape(-1, width)
    ends = ends.reshape(-1, width)
    marks = data[ends]
    if (marks[:, -1] != 10).any() or (marks[:, :-1] == 10).any():
        return None
    return starts, ends


def words_of(data, starts, lengths):
    """The bytes of some fields as words of eight, zero bytes behind them: an array of all first words, and so on."""
    every = numpy.ndarray((len(data) - 7,), "u8", data, strides=(1,))  # a word begins at each byte
    many = max((int(lengths.max()) + 7) // 8, 1)
    return [every[starts + 8 * at] & MASKS[numpy.clip(lengths - 8 * at, 0, 8)] for at in range(many)]


def keys_of(words):
    """A number of 64 bits for each text, whose upper bits tell most texts apart. Words of zero bytes change nothing."""
    key = words[0] * MIX
    for at, word in enumerate(words[1:], 1):
        key += word * MULTIPLIERS[at]
    return (key ^ (key >> numpy.uint64(32))) * MIX


def first_alike(words, key):
    """The place of the first text that is the same, for each, or None if slots don't tell them apart soon."""
    bits = max(len(key), 8).bit_length() + 1
    places = numpy.arange(len(key), dtype="u4")
    first = numpy.empty_like(places)
    slots = numpy.empty(1 << bits, "u4")
    for _ in range(ROUNDS):
        slot = key[places] >> numpy.uint64(64 - bits)
        # Of several places in one slot the one that is written last stays: the first one.
        slots[slot[::-1]] = places[::-1]
        owner = slots[slot]
        is_same = numpy.ones(len(places), bool)
        for word in words:
            is_same &= word[owner] == word[places]
        first[places[is_same]] = owner[is_same]
        places = places[~is_same]
        if not len(places):
            return first
        key = key * MIX + MIX
    return None


def texts_of(words):
    """The texts of words of eight bytes."""
    texts = numpy.stack(words, axis=1).view(f"S{8 * len(words)}").ravel().tolist()
    return b"\n".join(texts).decode().split("\n")


class Known:
    """The numbers of names that were met, by their bytes. A name whose slot is another's is met anew each time."""

    def __init__(self):
        self.words, self.numbers = [numpy.zeros(1, "u8")], numpy.zeros(1, "u4")
        self.bits, self.slots = 1, numpy.zeros(2, "u4")

    def find(self, words, key):
        """The number of each name, 0 where it is not known."""
        place = self.slots[key >> numpy.uint64(64 - self.bits)]
        is_known = numpy.ones(len(key), bool)
        for at in range(max(len(words), len(self.words))):
            known = self.words[at][place] if at < len(self.words) else 0
            is_known &= known == (words[at] if at < len(words) else 0)
        return numpy.where(is_known, self.numbers[place], 0)

    def add(self, words, numbers):
        if len(self.numbers) + len(numbers) > MOST_KNOWN:
            return
        many = max(len(words), len(self.words))
        nothing, before = numpy.zeros(len(numbers), "u8"), numpy.zeros(len(self.numbers), "u8")
        words = words + [nothing] * (many - len(words))
        self.words = self.words + [before] * (many - len(self.words))
        self.words = [numpy.concatenate(both) for both in zip(self.words, words)]
        self.numbers = numpy.concatenate((self.numbers, numbers))
        self.bits = len(self.numbers).bit_length() + 3
        self.slots = numpy.zeros(1 << self.bits, "u4")
        self.slots[keys_of(self.words) >> numpy.uint64(64 - self.bits)] = numpy.arange(len(self.numbers))


def whole_numbers(data, starts, lengths):
    """The numbers of fields of up to nine digits, or None if one isn't of digits alone."""
    if not lengths.all():
        return None
    values = numpy.zeros(len(starts), "u4")
    for at in range(int(lengths.max())):
        digit = data[starts + at] - numpy.uint8(48)
        is_inside = lengths > at
        if (digit[is_inside] > 9).any():
            return None
        values = numpy.where(is_inside, values * 10 + digit, values)
    return values


class Reader:
    """Reads the roads of a table by numpy, as far as it understands them."""

    def __init__(self, table, numbers, both_ways):
        self.table, self.numbers, self.both_ways, self.known = table, numbers, both_ways, Known()

    def weights(self, data, starts, lengths):
        """The weights of fields, or None if to_gr.py has to refuse one."""
        if self.table.shape.decimals == 0 and lengths.max() < 10:
            return whole_numbers(data, starts, lengths)
        words = words_of(data, starts, lengths)
        first = first_alike(words, keys_of(words))
        if first is None:
            return None
        is_new = first == numpy.arange(len(first))
        try:
            weights = [self.table.weigh(text) for text in texts_of([word[is_new] for word in words])]
        except ValueError:
            return None
        return numpy.array(weights, "u4")[(is_new.cumsum() - 1)[first]]

    def numbers_of(self, data, starts, lengths):
        """The numbers of names, or None, and then no name got one."""
        words = words_of(data, starts, lengths)
        key = keys_of(words)
        found = self.known.find(words, key)
        unknown = numpy.flatnonzero(found == 0)
        if not len(unknown):
            return found
        words = [word[unknown] for word in words]
        first = first_alike(words, key[unknown])
        if first is None:
            return None
        is_new = first == numpy.arange(len(first))
        words = [word[is_new] for word in words]
        texts = texts_of(words)
        if "" in texts or list(map(str.strip, texts)) != texts:
            return None
        given = numpy.fromiter(map(self.numbers.__getitem__, texts), "u4", len(texts))
        self.known.add(words, given)
        found[unknown] = given[(is_new.cumsum() - 1)[first]]
        return found

    def roads(self, least, most):
        """Yields the bytes of roads as long as whole blocks are understood, larger and larger ones."""
        size = least
        while block := self.table.lines.block(size):
            found = self.roads_of(block)
            if found is not None:
                self.table.lines.take(block, len(found))
                if self.both_ways:
                    found = numpy.stack([found, found[:, [1, 0, 2]]], axis=1)
                yield found.tobytes()
                size = min(4 * size, most)
            elif size == least:
                return
            else:
                size = least

    def roads_of(self, block):
        """The roads of whole lines, a row each, or None where to_gr.py has to look at each line."""
        plain = plain_block(block, self.table.shape.delimiter)
        if plain is None:
            return None
        # Behind the block are bytes enough for the words of a name at its end.
        data = numpy.frombuffer(plain[0] + bytes(LONGEST + 8), "u1")
        fields = fields_of(data[: len(plain[0])], plain[1], self.table.width)
        if fields is None:
            return None
        starts, ends = fields
        lengths = ends - starts
        used = list(self.table.places)
        if lengths.max() > FIELD or lengths[:, used].max() > LONGEST:
            return None
        if self.table.shape.delimiter == "blanks" and not lengths.all():
            return None
        tail, head, *own = used
        weights = self.table.shape.weight
        if own:
            weights = self.weights(data, starts[:, own[0]], lengths[:, own[0]])
            if weights is None:
                return None
        # Nothing else can be odd, so no name of a row that is refused gets a number.
        both = self.numbers_of(data, starts[:, [tail, head]].ravel(), lengths[:, [tail, head]].ravel())
        if both is None:
            return None
        roads = numpy.empty((len(starts), 3), "u4")
        roads[:, :2] = both.reshape(-1, 2)
        roads[:, 2] = weights
        return roads


def digits(values):
    """The decimal digits of numbers as characters, a row each, with zero bytes before them."""
    width = len(str(int(values.max())))
    found = numpy.zeros((len(values), width), "u1")
    for place in range(width - 1, -1, -1):
        rest = values // 10
        digit = (values - rest * 10 + 48).astype("u1")
        found[:, place] = digit if place == width - 1 else numpy.where(values > 0, digit, 0)
        values = rest
    return found


def arc_lines(arcs, many=1 << 17):
    """The lines of arcs, many together."""
    rows = numpy.frombuffer(arcs, "u4").reshape(-1, 3)
    for at in range(0, len(rows), many):
        part = rows[at : at + many]
        a, blank, feed = (numpy.full((len(part), 1), ord(mark), "u1") for mark in "a \n")
        tails, heads, weights = map(digits, part.T)
        found = numpy.hstack([a, blank, tails, blank, heads, blank, weights, feed]).ravel()
        yield found[found != 0].tobytes().decode("ascii")
