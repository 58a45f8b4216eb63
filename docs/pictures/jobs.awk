# Draws whole jobs beside plain Rust, from the README's table of them: a bar a time, in seconds. The bars of a graph are
# in ratio to its longest one, which goes nearly to the right edge.
function bar(at, seconds, scale, colour) {
    printf "<rect x=\"250\" y=\"%d\" width=\"%.1f\" height=\"18\" fill=\"%s\"/>\n", at, seconds * scale, colour
    printf "<text x=\"%.1f\" y=\"%d\">%.2f s</text>\n", 258 + seconds * scale, at + 14, seconds
}

BEGIN {
    FS = " *[|] *"
    who[5] = "plain Rust"; who[3] = "one worker"; who[4] = "four workers"
    colour[5] = "#aaaaaa"; colour[3] = "#1b6ca8"; colour[4] = "#8fb8dc"
}
/^## / { is_there = $0 == "## How fast" }
is_there && $5 ~ /^[0-9.]+ s$/ && $6 ~ /^[0-9.]+ s$/ && $7 ~ /^[0-9.]+ s$/ {
    rows++
    name[rows] = $2
    size[rows] = $4 " arcs"
    seconds[rows, 5] = $7 + 0; seconds[rows, 3] = $5 + 0; seconds[rows, 4] = $6 + 0
    for (j = 3; j <= 5; j++) if (seconds[rows, j] > greatest[rows]) greatest[rows] = seconds[rows, j]
}

END {
    height = 34 + rows * 86
    printf "<svg xmlns=\"http://www.w3.org/2000/svg\" viewBox=\"0 0 900 %d\" font-family=\"sans-serif\" font-size=\"14\">\n", height
    printf "<rect width=\"900\" height=\"%d\" fill=\"white\"/>\n", height
    printf "<text x=\"10\" y=\"22\" fill=\"#555\">whole jobs with one source; the bars of a graph are in ratio to its longest</text>\n"
    split("5 3 4", order, " ")
    for (i = 1; i <= rows; i++) {
        top = 40 + (i - 1) * 86
        printf "<text x=\"10\" y=\"%d\" font-weight=\"bold\">%s</text>\n", top + 14, name[i]
        printf "<text x=\"10\" y=\"%d\" fill=\"#555\">%s</text>\n", top + 34, size[i]
        for (j = 1; j <= 3; j++) {
            printf "<text x=\"240\" y=\"%d\" text-anchor=\"end\">%s</text>\n", top + (j - 1) * 23 + 14, who[order[j]]
            bar(top + (j - 1) * 23, seconds[i, order[j]], 570 / greatest[i], colour[order[j]])
        }
    }
    print "</svg>"
}
