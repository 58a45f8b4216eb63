# Draws time over workers, from the table of whole jobs in docs/BENCHMARKS.md: a panel for one source and one for
# ten, a line a graph, in ratio to plain Rust, on a scale where each doubling takes the same height. A name stands
# where its line ends, in the colour of the line, at least 18 from the next name.
function x(count) { return 70 + log(count) / log(2) * 130 }
function y(ratio) { return 110 - log(ratio) / log(2) * 55 }

# text(AT, DOWN, ANCHOR, WORDS)
function text(at, down, anchor, words) {
    printf "<text x=\"%.1f\" y=\"%.1f\" text-anchor=\"%s\">%s</text>\n", at, down, anchor, words
}

# spread(SOURCES): where the names stand, each beside the end of its line, moved apart where two are too near.
function spread(sources, g, other, moved, gap, times) {
    for (g = 1; g <= graphs; g++) down[g] = y(ratios[g, sources, 4])
    for (times = 1; times <= 100; times++) for (g = 1; g <= graphs; g++) for (other = 1; other <= graphs; other++) {
        gap = down[other] - down[g]
        if (g == other || gap < 0 || (gap == 0 && other < g) || gap >= 18) continue
        moved = (18 - gap) / 2
        down[g] -= moved
        down[other] += moved
    }
}

function mark(at, down, g) {
    printf "<path d=\"M%.1f %.1f%s\" fill=\"%s\" stroke=\"white\" stroke-width=\"2\"/>\n", at, down, shape[g], colour[g]
}

# panel(SOURCES, RIGHT, TITLE)
function panel(sources, right, title, ratio, count, g, points, i) {
    printf "<g transform=\"translate(%d 0)\">\n", right
    text(70, 22, "start", title)
    for (ratio = 0.125; ratio <= 2; ratio *= 2) {
        printf "<line x1=\"70\" y1=\"%.1f\" x2=\"330\" y2=\"%.1f\" stroke=\"%s\"/>\n", y(ratio), y(ratio), ratio == 1 ? "#888" : "#ddd"
        text(60, y(ratio) + 4, "end", ratio)
    }
    for (count = 1; count <= 4; count *= 2) text(x(count), 302, "middle", count)
    text(x(2), 322, "middle", "workers")
    spread(sources)
    for (g = 1; g <= graphs; g++) {
        points = ""
        for (count = 1; count <= 4; count *= 2) points = points sprintf("%.1f,%.1f ", x(count), y(ratios[g, sources, count]))
        printf "<polyline points=\"%s\" fill=\"none\" stroke=\"%s\" stroke-width=\"2\"/>\n", points, colour[g]
        for (count = 1; count <= 4; count *= 2) mark(x(count), y(ratios[g, sources, count]), g)
        printf "<text x=\"340\" y=\"%.1f\" fill=\"%s\">%s</text>\n", down[g] + 5, colour[g], name[g]
    }
    print "</g>"
}

BEGIN {
    FS = " *[|] *"
    split("#1b6ca8 #c0504d #4f8f3a", colour, " ")
    # A circle, a square and a triangle.
    split("m-5 0a5 5 0 1 0 10 0a5 5 0 1 0 -10 0;m-4.5 -4.5h9v9h-9z;m0 -6l5.5 9.5h-11z", shape, ";")
}
/^##/ { is_there = $0 == "## Whole jobs" }
is_there && ($3 == 1 || $3 == 10) && $6 ~ /^[0-9.]+$/ {
    if (!($2 in at)) { at[$2] = ++graphs; name[graphs] = $2 }
    ratios[at[$2], $3, 1] = $6; ratios[at[$2], $3, 2] = $8; ratios[at[$2], $3, 4] = $10
}

END {
    print "<svg xmlns=\"http://www.w3.org/2000/svg\" viewBox=\"0 0 880 340\" font-family=\"sans-serif\" font-size=\"14\">"
    print "<rect width=\"880\" height=\"340\" fill=\"white\"/>"
    panel(1, 0, "one source: time, in ratio to plain Rust")
    panel(10, 440, "ten sources")
    print "</svg>"
}
