"""Random sessions beside jobs.

Each session is of distances, levels or components, by 1 or 3 workers, with stray lines and wrong ones. The reply to each
request is compared with what the program writes for the job of the graph so far and this request, by the words of its
head or else the options of the session; and each refusal with the fault of that job. Each session is asked with its
input closed, and with its input left open until its last reply has come.
"""

import itertools
import random
import struct
import subprocess
import sys


FAR = 2**64 - 1


def wrong(text):
    """Says what is wrong, and ends."""
    print(text, file=sys.stderr)
    sys.exit(1)


def run(program, options, text):
    """What the program writes for a whole input: output, a character a byte, error, status."""
    done = subprocess.run([program, *options], input=text.encode("ascii"), capture_output=True, check=False)
    return done.stdout.decode("latin-1"), done.stderr.decode("ascii"), done.returncode


def begin(program, *options):
    """A session with its three pipes."""
    pipe = subprocess.PIPE
    return subprocess.Popen([program, "--session", *options], stdin=pipe, stdout=pipe, stderr=pipe, bufsize=0)


def read_exactly(process, count):
    """So many bytes of output, or fewer if it ends."""
    found = b""
    while len(found) < count and (piece := process.stdout.read(count - len(found))):
        found += piece
    return found.decode("latin-1")


def in_pieces(program, options, text, output, sizes):
    """Writes pieces, and reads all output that is wanted with the input left open, unless the end is part of it."""
    process = begin(program, *options)
    try:
        at = 0
        for size in sizes:
            process.stdin.write(text[at : at + size].encode("ascii"))
            at += size
            if at >= len(text):
                break
    except BrokenPipeError:
        pass
    open_output = read_exactly(process, len(output)) if text.endswith("\n") else ""
    try:
        process.stdin.close()
    except BrokenPipeError:
        pass
    rest = process.stdout.read().decode("latin-1")
    error = process.stderr.read().decode("ascii")
    return open_output + rest, error, process.wait()


def letter_fields(letter):
    """Fields after a letter."""
    return {"s": "v", "q": "vv", "a": "vvw"}[letter]


def records(letter, rows):
    """Lines of a letter and numbers."""
    return "".join(f"{letter} {' '.join(map(str, row))}\n" for row in rows)


# The words that may stand before each form: kinds, and lines.
KINDS = ["distances", "levels", "components"]
WORDS = {
    "ss": (KINDS, ["each", "walks", "raw", "totals"]),
    "within": (KINDS[:2], ["each", "walks"]),
    "p2p": (KINDS, ["each", "walks", "raw"]),
    "walk": (KINDS[:2], []),
    "add": ([], []),
    "cut": ([], []),
    "set": ([], []),
    "arcs": ([], []),
}
LETTERS = {"ss": "s", "within": "s", "p2p": "q", "walk": "q", "add": "a", "cut": "q", "set": "a", "arcs": "q"}


def draw_request(draw, n):
    """The words and the form of a head, each `None` if it is left out, its bound, and its records."""
    form = draw.choice(list(WORDS))
    kinds, lines = WORDS[form]
    kind = draw.choice([None, None, *kinds])
    word = None if kind == "components" else draw.choice([None, None, *lines])
    bound = draw.randrange(20) if form == "within" else None
    fields = letter_fields(LETTERS[form])
    vertex = lambda: draw.randrange(1, n + 1)
    rows = [tuple(vertex() if field == "v" else draw.randrange(9) for field in fields) for _ in range(draw.randrange(4))]
    return kind, word, form, bound, rows


def head_of(request):
    """What follows `p aux sp` up to the count of a section."""
    kind, word, form, bound, _ = request
    return " ".join(str(part) for part in (kind, word, form, bound) if part is not None)


# The lines that a session may have, but for those of components.
FORMS = [[], ["--labels=raw"], ["--totals"], ["--walks"], ["--within=6"], ["--walks", "--within=6"]]
BY_WORD = {"each": [], "walks": ["--walks"], "raw": ["--labels=raw"], "totals": ["--totals"]}


def job_options(workers, answer, lines, request):
    """The options of the job that is answered as a request is, in a session that has this answer and these lines."""
    kind, word, form, bound, _ = request
    answer = kind or answer
    if form == "walk":
        word = "walks"
    if answer == "components":
        lines = []
    elif word is not None:
        lines = BY_WORD[word] + ([f"--within={bound}"] if bound is not None else [])
    elif bound is not None:
        lines = [line for line in lines if line == "--walks"] + [f"--within={bound}"]
    if LETTERS[form] == "q":
        # Pairs have no bound.
        lines = [line for line in lines if not line.startswith("--within")]
    return ["--workers", workers, "--answer", answer, *lines]


def bytes_of(lines):
    """The bytes of the pairs of these lines."""
    costs = [line.split()[3] for line in lines.splitlines()]
    return struct.pack(f"<{len(costs)}Q", *(FAR if cost == "inf" else int(cost) for cost in costs)).decode("latin-1")


def job_reply(program, session, n, arcs, request, line):
    """What a session replies to a whole request that ends on a line, by jobs alone; and the arcs from then on."""
    workers, answer, _ = session
    _, _, form, _, rows = request
    graph = lambda of: f"p sp {n} {len(of)}\n" + records("a", of)
    if form == "arcs":
        listed = [arc for row in rows for arc in arcs if arc[:2] == row]
        return f"{records('a', listed)}r {n} {len(arcs)} {line}\n", arcs
    if form in ("add", "cut", "set"):
        removed = {row[:2] for row in rows} if form != "add" else set()
        left = [arc for arc in arcs if arc[:2] not in removed]
        lines = f"x {len(arcs) - len(left)}\n" if form != "add" else ""
        lines += f"g {len(rows)}\n" if form != "cut" else ""
        arcs = left + (rows if form != "cut" else [])
        block = run(program, ["--workers", workers, "--answer", answer], graph(arcs))[0] if answer == "components" else ""
        return f"{lines}{block}r {n} {len(arcs)} {line}\n", arcs
    section = {"walk": "p2p", "within": "ss"}.get(form, form)
    text = graph(arcs) + f"p aux sp {section} {len(rows)}\n" + records(LETTERS[form], rows)
    output, error, status = run(program, job_options(*session, request), text)
    if status:
        wrong(f"job ended with {status}: {error}")
    if form == "p2p" and request[1] == "raw" and (request[0] or answer) != "components":
        output = bytes_of(output)
    return f"{output}r {n} {len(arcs)} {line}\n", arcs


def draw_wrong(draw, n, request, line):
    """A request with a fault, and the line that refuses it."""
    _, _, form, _, rows = request
    head, letter = head_of(request), LETTERS[form]
    outside = records(letter, [(n + 1,) * len(letter_fields(letter))])
    if draw.randrange(2):
        text = f"p aux sp {head} {len(rows) + 1}\n" + records(letter, rows) + outside
        return text, f"e {line + len(rows) + 1} out of range\n"
    # No form takes both words of a kind, or words in another order; the records that follow are passed by.
    unknown = draw.choice(["levels distances ss", "raw levels ss", "totals p2p", "walks walk", "levels add", "each cut", "raw arcs", "nearest"])
    if draw.randrange(2):
        return f"p aux sp {unknown} {len(rows)}\n" + records(letter, rows), f"e {line} unknown line\n"
    return f"p aux sp {head} {len(rows)} 1\n", f"e {line} wrong number of fields\n"


def check_random(program, count):
    """Random sessions of so many requests: each reply is that of a job."""
    asked = 0
    for seed in itertools.count():
        if asked >= count:
            return
        draw = random.Random(seed)
        n = draw.randrange(1, 9)
        arcs = [(draw.randrange(1, n + 1), draw.randrange(1, n + 1), draw.randrange(9)) for _ in range(draw.randrange(12))]
        workers, answer = draw.choice("13"), draw.choice(KINDS)
        lines = [] if answer == "components" else draw.choice(FORMS)
        options = ["--workers", workers, "--answer", answer, *lines]
        text = f"p sp {n} {len(arcs)}\n" + records("a", arcs)
        block = run(program, options, text)[0] if answer == "components" else ""
        wanted = f"{block}r {n} {len(arcs)} {len(arcs) + 1}\n"
        for _ in range(draw.randrange(6)):
            request = draw_request(draw, n)
            asked += 1
            if draw.randrange(4) == 0:
                faulty, refusal = draw_wrong(draw, n, request, text.count("\n") + 1)
                text += faulty
                wanted += refusal
                continue
            text += f"p aux sp {head_of(request)} {len(request[-1])}\n" + records(LETTERS[request[2]], request[-1])
            reply, arcs = job_reply(program, (workers, answer, lines), n, arcs, request, text.count("\n"))
            wanted += reply
        for found in (run(program, ["--session", *options], text), in_pieces(program, options, text, wanted, [len(text)])):
            if found != (wanted, "", 0):
                wrong(f"seed {seed}: {found} and not {wanted!r} for {text!r} by {options}")
