# Draws the crates of crates.txt in layers: each above those that it stands on. An arrow that follows from others is
# left out, and so are the crates of the toolchain. Each crate has a place in a row: without one, or at another's,
# this fails.
function stands_on(above, below, i, parts, count) {
    count = split(below_of[above], parts, " ")
    for (i = 1; i <= count; i++) if (parts[i] == below || stands_on(parts[i], below)) return 1
    return 0
}

# follows(ABOVE, BELOW): some other crate stands between the two.
function follows(above, below, i, parts, count) {
    count = split(below_of[above], parts, " ")
    for (i = 1; i <= count; i++) if (parts[i] != below && stands_on(parts[i], below)) return 1
    return 0
}

function y(crate) { return 30 + (highest - layer[crate]) * 74 }

# aside(FROM, TO): how far beside the middle of FROM an arrow leaves that leads to TO.
function aside(from, to, far) {
    far = (x[to] - x[from]) * 0.2
    return far > 55 ? 55 : far < -55 ? -55 : far
}

function is_test(crate) { return crate ~ /_tests$/ }

function arrow(above, below) {
    printf "<line x1=\"%.1f\" y1=\"%d\" x2=\"%.1f\" y2=\"%d\" stroke=\"#777\" stroke-width=\"1.5\"%s marker-end=\"url(#head)\"/>\n", \
        x[above] + aside(above, below), y(above) + 17, x[below] + aside(below, above), y(below) - 18, \
        is_test(above) ? " stroke-dasharray=\"5 4\"" : ""
}

# box(AT, DOWN, WIDE, HIGH, OF_TESTS): AT and DOWN are its middle.
function box(at, down, wide, high, of_tests) {
    printf "<rect x=\"%d\" y=\"%d\" width=\"%d\" height=\"%d\" rx=\"6\" %s/>\n", at - wide / 2, down - high / 2, wide, high, \
        of_tests ? "fill=\"white\" stroke=\"#777\" stroke-dasharray=\"5 4\"" : "fill=\"#e8f0f8\" stroke=\"#1b6ca8\""
}

function text(at, down, anchor, words) {
    printf "<text x=\"%d\" y=\"%d\" text-anchor=\"%s\">%s</text>\n", at, down + 5, anchor, words
}

function place(crate, at) { x[crate] = at }

BEGIN {
    # The text, the worklist, the labels and the walks beside one another; above them what joins them.
    place("route_walks", 510)
    place("answer_lines", 190); place("obim_bags", 510); place("csr_graph", 715)
    place("dimacs_text", 190); place("obim_pool", 510); place("relax_core", 675); place("walk_report", 840)
    place("contraction", 1005)
    place("request_reader", 90); place("job_reader", 290); place("worklist_tests", 465); place("label_words", 690)
    place("elimination", 1005)
    place("text_tests", 190); place("obim_engine", 650); place("near_labels", 850)
    place("engine_tests", 420); place("least_costs", 590); place("graph_tests", 755); place("hierarchy", 930)
    place("job_answer", 395); place("cost_examples", 560); place("costs_tests", 725); place("hierarchy_tests", 890)
    place("session_answer", 90); place("command_line", 310); place("job_messages", 510)
    place("answer_tests", 190); place("obim_query", 410)
}

/^[a-z_]+:/ {
    crate = substr($1, 1, length($1) - 1)
    order[++crates] = crate
    for (i = 2; i <= NF; i++) if ($i in layer) {
        below_of[crate] = below_of[crate] " " $i
        if (layer[$i] >= layer[crate]) layer[crate] = layer[$i] + 1
    }
    layer[crate] += 0
    if (layer[crate] > highest) highest = layer[crate]
}

END {
    for (i = 1; i <= crates; i++) {
        if (!(order[i] in x)) { print "no place for " order[i] >"/dev/stderr"; exit 1 }
        for (j = 1; j < i; j++) if (layer[order[j]] == layer[order[i]] && (x[order[j]] - x[order[i]]) ^ 2 < 160 ^ 2) {
            print order[j] " stands over " order[i] >"/dev/stderr"
            exit 1
        }
    }
    height = y(order[1]) + 30
    print "<svg xmlns=\"http://www.w3.org/2000/svg\" viewBox=\"0 0 1090 " height "\" font-family=\"monospace\" font-size=\"15\">"
    print "<defs><marker id=\"head\" viewBox=\"0 0 10 10\" refX=\"10\" refY=\"5\" markerWidth=\"8\" markerHeight=\"8\" orient=\"auto\"><path d=\"M0 0L10 5L0 10z\" fill=\"#777\"/></marker></defs>"
    print "<rect width=\"1090\" height=\"" height "\" fill=\"white\"/>"
    for (i = 1; i <= crates; i++) {
        count = split(below_of[order[i]], parts, " ")
        for (j = 1; j <= count; j++) if (!follows(order[i], parts[j])) arrow(order[i], parts[j])
    }
    for (i = 1; i <= crates; i++) {
        box(x[order[i]], y(order[i]), 150, 34, is_test(order[i]))
        text(x[order[i]], y(order[i]), "middle", order[i])
    }
    for (i = 0; i <= 1; i++) {
        box(750, 40 + i * 30, 34, 18, i)
        text(780, 40 + i * 30, "start", i ? "a crate of tests" : "a crate")
    }
    print "</svg>"
}
