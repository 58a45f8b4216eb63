# Draws the time of one source over the size of a map, from the table of sizes in docs/BENCHMARKS.md: a panel for whole
# jobs and one for solving alone, a line for plain Rust, one for one worker and one for four, in nanoseconds a vertex.
function x(vertices) { return 70 + (log(vertices) / log(10) - 4) * 82 }
function y(time) { return 280 - time * scale }

# text(AT, DOWN, ANCHOR, WORDS)
function text(at, down, anchor, words) {
    printf "<text x=\"%.1f\" y=\"%.1f\" text-anchor=\"%s\">%s</text>\n", at, down, anchor, words
}

# line(COLUMN, I): the line of a column of the table, and its name where it ends, at least 16 below that of the line
# that ends above it.
function line(column, i, points, marks, row, down) {
    for (row = 1; row <= rows; row++) {
        points = points sprintf("%.1f,%.1f ", x(size[row]), y(time[row, column]))
        marks = marks sprintf("<path d=\"M%.1f %.1f%s\" fill=\"%s\" stroke=\"white\" stroke-width=\"2\"/>\n", \
            x(size[row]), y(time[row, column]), shape[i], colour[i])
    }
    printf "<polyline points=\"%s\" fill=\"none\" stroke=\"%s\" stroke-width=\"2\"/>\n%s", points, colour[i], marks
    down = y(time[rows, column]) + 5
    if (down < lowest + 16) down = lowest + 16
    lowest = down
    text(358, down, "start", name[i])
}

# panel(FIRST, RIGHT, TITLE): of three columns of the table, from the first one on.
function panel(first, right, title, tick, exponent, i, drawn, next_one, done) {
    printf "<g transform=\"translate(%d 0)\">\n", right
    text(70, 22, "start", title)
    for (tick = 0; tick <= greatest; tick += step) {
        printf "<line x1=\"70\" y1=\"%.1f\" x2=\"348\" y2=\"%.1f\" stroke=\"%s\"/>\n", y(tick), y(tick), tick ? "#ddd" : "#888"
        text(60, y(tick) + 4, "end", tick)
    }
    for (exponent = 4; exponent <= 7; exponent++) text(x(10 ^ exponent), 302, "middle", count[exponent])
    text(209, 322, "middle", "vertices")
    lowest = 0
    for (drawn = 1; drawn <= 3; drawn++) {
        next_one = 0
        for (i = 1; i <= 3; i++) {
            if (!done[i] && (!next_one || time[rows, first + i - 1] > time[rows, first + next_one - 1])) next_one = i
        }
        done[next_one] = 1
        line(first + next_one - 1, next_one)
    }
    print "</g>"
}

BEGIN {
    FS = " *[|] *"
    split("plain Rust;one worker;four workers", name, ";")
    split("#888888 #1b6ca8 #c0504d", colour, " ")
    # A circle, a square and a triangle.
    split("m-5 0a5 5 0 1 0 10 0a5 5 0 1 0 -10 0;m-4.5 -4.5h9v9h-9z;m0 -6l5.5 9.5h-11z", shape, ";")
    count[4] = "10,000"; count[5] = "100,000"; count[6] = "1 million"; count[7] = "10 million"
}
/^#/ { is_there = $0 == "### Maps by size" }
is_there && NF == 9 && $2 ~ /^[0-9,]+$/ {
    size[++rows] = $2
    gsub(",", "", size[rows])
    for (column = 3; column <= 8; column++) {
        time[rows, column] = $column + 0
        if (time[rows, column] > greatest) greatest = time[rows, column]
    }
}

END {
    step = greatest > 1000 ? 200 : 100
    greatest = step * int(greatest / step + 0.999)
    scale = 240 / greatest
    print "<svg xmlns=\"http://www.w3.org/2000/svg\" viewBox=\"0 0 920 340\" font-family=\"sans-serif\" font-size=\"14\">"
    print "<rect width=\"920\" height=\"340\" fill=\"white\"/>"
    panel(3, 0, "a whole job of one source: nanoseconds a vertex")
    panel(6, 460, "solving alone")
    print "</svg>"
}
