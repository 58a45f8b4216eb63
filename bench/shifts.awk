# Draws the time over the shift as a picture, from the rows that bench/shifts prints: distances above, components
# below. Times are in ratio to the best fixed shift of the graph, on a scale where each doubling takes the same
# height. A dashed line is the default, with its mark at the right; a ratio above 20 or below 0.18 is not drawn.
function x(shift) { return 60 + shift * 24 }
function y(ratio) { return 200 - log(ratio) / log(2) * 35 }
function is_drawn(ratio) { return ratio != "-" && ratio <= 20 && ratio >= 0.18 }

# mark(AT, DOWN, F): the mark of the F-th graph of a panel.
function mark(at, down, f) {
    return sprintf("<path d=\"M%.1f %.1f%s\" fill=\"%s\" stroke=\"%s\" stroke-width=\"2\"/>\n", \
        at, down, shape[f], f == 5 ? "none" : "white", colour[f])
}

# text(AT, DOWN, ANCHOR, WORDS)
function text(at, down, anchor, words) {
    printf "<text x=\"%d\" y=\"%d\" text-anchor=\"%s\">%s</text>\n", at, down, anchor, words
}

# frame(ANSWER): what a panel shows, lines for the ratios, and numbers at both scales.
function frame(answer, ratio, shift) {
    text(60, 22, "start", answer ": time, in ratio to the best fixed shift")
    print "<rect x=\"654\" y=\"40\" width=\"84\" height=\"246\" fill=\"#f2f2f2\"/>"
    for (ratio = 0.25; ratio <= 16; ratio *= 2) {
        printf "<line x1=\"60\" y1=\"%d\" x2=\"738\" y2=\"%d\" stroke=\"#ddd\"/>\n", y(ratio), y(ratio)
        text(50, y(ratio) + 4, "end", ratio)
    }
    for (shift = 0; shift <= 24; shift += 2) text(x(shift), 304, "middle", shift)
    text(x(12), 324, "middle", "--shift BITS: each bucket is 2^BITS labels wide")
    text(696, 304, "middle", "default")
    text(890, 46, "end", "default")
}

# graph(ANSWER, F): the line of a graph over the shifts, that of the default, and its row of the legend.
function graph(answer, f, i, key, ratio, points, marks, end) {
    key = answer " " name[f]
    for (i = 1; i <= count[key]; i++) {
        ratio = time[key, i] / best[key]
        points = points sprintf("%.1f,%.1f ", x(shift_at[key, i]), y(ratio))
        if (is_drawn(ratio)) marks = marks mark(x(shift_at[key, i]), y(ratio), f)
    }
    printf "<polyline points=\"%s\" clip-path=\"url(#panel)\" fill=\"none\" stroke=\"%s\" stroke-width=\"2\"/>\n", \
        points, colour[f]
    if (is_drawn(chosen[key])) {
        end = 661 + 14 * (f - 1)
        printf "<line x1=\"60\" y1=\"%.1f\" x2=\"%d\" y2=\"%.1f\" stroke=\"%s\" stroke-dasharray=\"6 4\"/>\n", \
            y(chosen[key]), end, y(chosen[key]), colour[f]
        marks = marks mark(end, y(chosen[key]), f)
    }
    printf "%s%s", marks, mark(764, 45 + 24 * f, f)
    text(778, 50 + 24 * f, "start", name[f])
    text(890, 50 + 24 * f, "end", chosen[key])
}

# panel(ANSWER, DOWN, NAMES)
function panel(answer, down, names, f, families) {
    families = split(names, name, " ")
    printf "<g transform=\"translate(0 %d)\">\n", down
    frame(answer)
    for (f = 1; f <= families; f++) graph(answer, f)
    print "</g>"
}

{ key = $2 " " $1 }
$4 == "auto" && $3 == 1 { chosen[key] = $8 }
$4 != "auto" && $5 != "-" {
    i = ++count[key]; shift_at[key, i] = $4; time[key, i] = $5
    if (!(key in best) || $5 < best[key]) best[key] = $5
}

END {
    split("#1b6ca8 #c0504d #4f8f3a #7a4fa3 #b8770b #2a8f8f", colour, " ")
    # A circle, a square, a triangle, a diamond, a cross, and a triangle that points down.
    split("m-5 0a5 5 0 1 0 10 0a5 5 0 1 0 -10 0;m-4.5 -4.5h9v9h-9z;m0 -6l5.5 9.5h-11z;m0 -6.5l5 6.5l-5 6.5l-5 -6.5z;" \
        "m-4.5 -4.5l9 9m-9 0l9 -9;m0 6l5.5 -9.5h-11z", shape, ";")
    print "<svg xmlns=\"http://www.w3.org/2000/svg\" viewBox=\"0 0 900 676\" font-family=\"sans-serif\" font-size=\"13\">"
    print "<clipPath id=\"panel\"><rect x=\"60\" y=\"40\" width=\"594\" height=\"246\"/></clipPath>"
    print "<rect width=\"900\" height=\"676\" fill=\"white\"/>"
    panel("distances", 0, "road-like random power-law path near unit")
    panel("components", 342, "road-like random power-law lonely cliques cut")
    print "</svg>"
}
