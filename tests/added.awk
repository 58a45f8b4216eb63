# Answers a job by going along all arcs, round after round, until no label falls: of the graph, and from scratch of the
# graph with the added arcs. `awk -v kind=levels -v walks=1 -f tests/added.awk JOB`; components are the third kind.

/^p sp / { vertices = $3 }
/^p aux sp / { section = $4 }
/^p aux sp add / { grows = 1; more = $5 }
/^a / {
    arcs++
    tail[arcs] = $2
    head[arcs] = $3
    weight[arcs] = kind == "levels" ? 1 : $4
    if (section != "add") before = arcs
}
/^s / { source[++queries] = $2 }
/^q / { source[++queries] = $2; target[queries] = $3 }

# The least labels from a source along the first arcs.
function solve(from, count,    i, falls) {
    split("", label)
    label[from] = 0
    for (falls = 1; falls;) {
        falls = 0
        for (i = 1; i <= count; i++)
            if (tail[i] in label && (!(head[i] in label) || label[tail[i]] + weight[i] < label[head[i]])) {
                label[head[i]] = label[tail[i]] + weight[i]
                falls = 1
            }
    }
}

# Whether an arc is part of a cheapest walk.
function is_tight(i) { return tail[i] in label && label[tail[i]] + weight[i] == label[head[i]] }

# Of the cheapest walks the fewest arcs to each vertex, and the least vertex before it on one with so few.
function trace(from, count,    i, falls, v) {
    split("", hops)
    split("", parent)
    hops[from] = 0
    for (falls = 1; falls;) {
        falls = 0
        for (i = 1; i <= count; i++)
            if (is_tight(i) && tail[i] in hops && (!(head[i] in hops) || hops[tail[i]] + 1 < hops[head[i]])) {
                hops[head[i]] = hops[tail[i]] + 1
                falls = 1
            }
    }
    for (i = 1; i <= count; i++) {
        v = head[i]
        if (is_tight(i) && hops[tail[i]] + 1 == hops[v] && (!(v in parent) || tail[i] < parent[v])) parent[v] = tail[i]
    }
}

function cost(v) { return v in label ? sprintf("%.0f", label[v]) : "inf" }

function put_walk(from, v,    at, way) {
    if (!walks || !(v in label)) return
    way = at = v
    while (at != from) {
        at = parent[at]
        way = at " " way
    }
    print "w " v " " cost(v) " " way
}

# The block of a query along the first arcs.
function put_block(query, count,    from, v) {
    from = source[query]
    solve(from, count)
    if (walks) trace(from, count)
    if (query in target) {
        print "q " from " " target[query] " " cost(target[query])
        put_walk(from, target[query])
        return
    }
    print "s " from
    for (v = 1; v <= vertices; v++) {
        print "d " v " " cost(v)
        put_walk(from, v)
    }
}

# The components along the first arcs, whichever way they point.
function put_components(count,    i, falls, low, v) {
    for (v = 1; v <= vertices; v++) label[v] = v
    for (falls = 1; falls;) {
        falls = 0
        for (i = 1; i <= count; i++) {
            low = label[tail[i]] < label[head[i]] ? label[tail[i]] : label[head[i]]
            if (label[tail[i]] != low || label[head[i]] != low) {
                label[tail[i]] = label[head[i]] = low
                falls = 1
            }
        }
    }
    for (v = 1; v <= vertices; v++) print "k " v " " label[v]
}

END {
    before += 0
    if (kind == "components") {
        put_components(before)
        if (grows) {
            print "g " more
            put_components(arcs)
        }
        exit
    }
    for (query = 1; query <= queries; query++) {
        put_block(query, before)
        if (grows) {
            print "g " more
            put_block(query, arcs)
        }
    }
}
