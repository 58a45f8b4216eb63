# Draws the six vertices of examples/six.gr: each arc with its weight, each vertex with its least cost from vertex 1
# (the lines `d V COST`), and the walk to vertex 6 (the line `w 6 ..`).
function line(from, to, colour, wide, dx, dy, long) {
    dx = x[to] - x[from]; dy = y[to] - y[from]; long = sqrt(dx * dx + dy * dy)
    printf "<line x1=\"%.1f\" y1=\"%.1f\" x2=\"%.1f\" y2=\"%.1f\" stroke=\"%s\" stroke-width=\"%s\" marker-end=\"url(#%s)\"/>\n", \
        x[from] + dx / long * 22, y[from] + dy / long * 22, x[to] - dx / long * 24, y[to] - dy / long * 24, \
        colour, wide, substr(colour, 2)
}

# A weight stands beside its arc, a third of the way along.
function weight(from, to, words, dx, dy, long) {
    dx = x[to] - x[from]; dy = y[to] - y[from]; long = sqrt(dx * dx + dy * dy)
    printf "<text x=\"%.1f\" y=\"%.1f\" text-anchor=\"middle\" fill=\"#555\">%s</text>\n", \
        x[from] + dx * 0.36 + dy / long * 13, y[from] + dy * 0.36 - dx / long * 13 + 5, words
}

function head(colour) {
    return "<marker id=\"" substr(colour, 2) "\" viewBox=\"0 0 10 10\" refX=\"10\" refY=\"5\" markerWidth=\"9\" markerHeight=\"9\" markerUnits=\"userSpaceOnUse\" orient=\"auto\"><path d=\"M0 0L10 5L0 10z\" fill=\"" colour "\"/></marker>"
}

BEGIN {
    split("60 240 150 430 360 610", x, " ")
    split("60 60 210 60 210 60", y, " ")
}
$1 == "a" { arcs++; tail[arcs] = $2; tip[arcs] = $3; cost[arcs] = $4 }
$1 == "d" { label[$2] = $3 }
$1 == "w" && $2 == 6 { for (i = 4; i < NF; i++) on_walk[$i, $(i + 1)] = 1 }

END {
    print "<svg xmlns=\"http://www.w3.org/2000/svg\" viewBox=\"0 0 670 280\" font-family=\"sans-serif\" font-size=\"15\">"
    print "<defs>" head("#999999") head("#c0504d") "</defs>"
    print "<rect width=\"670\" height=\"280\" fill=\"white\"/>"
    for (i = 1; i <= arcs; i++) if (!((tail[i], tip[i]) in on_walk)) line(tail[i], tip[i], "#999999", 1.5)
    for (i = 1; i <= arcs; i++) if ((tail[i], tip[i]) in on_walk) line(tail[i], tip[i], "#c0504d", 3.5)
    for (i = 1; i <= arcs; i++) weight(tail[i], tip[i], cost[i])
    for (v = 1; v <= 6; v++) {
        printf "<circle cx=\"%d\" cy=\"%d\" r=\"20\" fill=\"#e8f0f8\" stroke=\"#1b6ca8\" stroke-width=\"2\"/>\n", x[v], y[v]
        printf "<text x=\"%d\" y=\"%d\" text-anchor=\"middle\" font-weight=\"bold\">%d</text>\n", x[v], y[v] + 5, v
        printf "<text x=\"%d\" y=\"%d\" text-anchor=\"middle\" fill=\"#1b6ca8\">%s</text>\n", x[v], y[v] + (y[v] < 100 ? -28 : 40), label[v]
    }
    print "</svg>"
}
