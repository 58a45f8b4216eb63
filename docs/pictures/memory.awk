# Draws the most memory by phase, from the table of docs/TUNING.md: for distances and levels, and for components, a
# bar a phase, what arcs take and after it what vertices take, in MB. The graph is the second of the README's table of
# times, which is read before. The worklist and added arcs are not drawn. Components have no pairs.
function text(at, down, anchor, words) {
    printf "<text x=\"%.1f\" y=\"%d\" text-anchor=\"%s\">%s</text>\n", at, down, anchor, words
}

function box(at, down, width, height, colour) {
    printf "<rect x=\"%.1f\" y=\"%d\" width=\"%.1f\" height=\"%d\" fill=\"%s\"/>\n", at, down, width, height, colour
}

# number(WORDS): a number with commas, or of millions.
function number(words) {
    gsub(",", "", words)
    return words * (words ~ /million/ ? 1000000 : 1)
}

# bar(DOWN, PHASE, BYTES, MORE): of which BYTES are for an arc, and MORE for a vertex.
function bar(down, phase, bytes, more, arcs, vertices) {
    arcs = bytes * arc_count / 1000000
    vertices = more * vertex_count / 1000000
    text(left - 10, down + 14, "end", name[phase])
    box(left, down, arcs * scale, 18, "#1b6ca8")
    box(left + arcs * scale, down, vertices * scale, 18, "#e0a030")
    text(left + (arcs + vertices) * scale + 8, down + 14, "start", arcs + vertices (more_of[phase] ~ /^the worklist/ ? " and the worklist" : ""))
}

BEGIN {
    FS = " *[|] *"
    left = 290
    scale = 0.95
}
/^## / { section = $0 }
section == "## How fast" && $5 ~ /^[0-9.]+ s$/ && ++graphs == 2 { vertex_count = number($3); arc_count = number($4) }
section == "## Memory" && $3 ~ /^[0-9]+/ {
    name[++phases] = $2
    for_arc[phases] = for_components[phases] = $3 + 0
    if (match($3, /for components [0-9]+/)) for_components[phases] = substr($3, RSTART + 15) + 0
    for_vertex[phases] = for_vertices[phases] = $4 + 0
    if (match($4, /for components [0-9]+/)) for_vertices[phases] = substr($4, RSTART + 15) + 0
    more_of[phases] = $5
}

END {
    for (i = 1; i <= phases; i++) of_pairs += name[i] ~ /many pairs/
    height = 2 * (phases * 24 + 34) - of_pairs * 24 + 16
    printf "<svg xmlns=\"http://www.w3.org/2000/svg\" viewBox=\"0 0 900 %d\" font-family=\"sans-serif\" font-size=\"14\">\n", height
    printf "<rect width=\"900\" height=\"%d\" fill=\"white\"/>\n", height
    box(left + 300, 8, 14, 14, "#1b6ca8"); text(left + 320, 20, "start", "arcs")
    box(left + 370, 8, 14, 14, "#e0a030"); text(left + 390, 20, "start", "vertices, in MB")
    for (components = 0; components <= 1; components++) {
        top = components * (phases * 24 + 34)
        printf "<text x=\"10\" y=\"%d\" font-weight=\"bold\">%s</text>\n", top + 20, components ? "components" : "distances, levels"
        line = 0
        for (i = 1; i <= phases; i++) if (!components || name[i] !~ /many pairs/) bar(top + 30 + line++ * 24, i, components ? for_components[i] : for_arc[i], components ? for_vertices[i] : for_vertex[i])
    }
    print "</svg>"
}
