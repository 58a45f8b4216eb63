# Prints a man page as plain text, for who has no `man`: awk -f plain.awk <PAGE
# It knows the requests that obim_query.1 uses, and no others.

# arguments(LINE): what a request prints: its arguments, joined by blanks for .SH, .B and .I, and by nothing for .BR.
function arguments(line, out, blank) {
    blank = line ~ /^[.](SH|B|I) / ? " " : ""
    sub(/^[.][A-Z]+ +/, "", line)
    while (line != "") {
        out = out (out == "" ? "" : blank)
        if (match(line, /^"[^"]*"/)) out = out substr(line, 2, RLENGTH - 2)
        else { match(line, /^[^ ]+/); out = out substr(line, 1, RLENGTH) }
        line = substr(line, RLENGTH + 1)
        sub(/^ +/, "", line)
    }
    return out
}

# plain(TEXT): without its escapes.
function plain(text) {
    gsub(/\\f[BIRP]/, "", text)
    gsub(/\\-/, "-", text)
    gsub(/\\\(aq/, "'", text)
    gsub(/\\\\/, "\\", text)
    return text
}

# keep(TEXT): keeps a row of a table, in two columns. put_table: prints the rows, the second column two blanks after the
# longest of the first.
function keep(text) {
    rows[++many] = text
    if (index(text, "\t") - 1 > width) width = index(text, "\t") - 1
}
function put_table(i, at) {
    for (i = 1; i <= many; i++) {
        at = index(rows[i], "\t")
        printf "%s%-*s  %s\n", indent, width, substr(rows[i], 1, at - 1), substr(rows[i], at + 1)
    }
    many = width = 0
}

# fill(TEXT): adds words to the paragraph, in lines of at most 79 columns. flush: ends it.
function fill(text, count, words, i) {
    count = split(text, words, " ")
    for (i = 1; i <= count; i++) {
        if (line != "" && length(indent line " " words[i]) > 79) flush()
        line = line (line == "" ? "" : " ") words[i]
    }
}
function flush() { if (line != "") print indent line; line = "" }

/^('|[.])\\"/ || /^[.]TH / || /^l l[.]$/ { next }
/^[.](PP|SH|TP|nf|fi|TS|TE)/ { flush() }
/^[.]TS/ { is_table = 1; next }
/^[.]TE/ { put_table(); is_table = 0; next }
/^[.]nf/ { as_it_is = 1; next }
/^[.]fi/ { as_it_is = 0; next }
/^[.]PP/ { print ""; indent = "    "; next }
/^[.]SH/ { print (any++ ? "\n" : "") plain(arguments($0)); indent = "    "; next }
/^[.]TP/ { print ""; is_tag = 1; indent = "    "; next }
is_table { keep(plain($0)); next }
as_it_is { print indent plain($0); next }
{ fill(plain(/^[.][BIR]+ / ? arguments($0) : $0)) }
is_tag { flush(); is_tag = 0; indent = "        " }
END { flush() }
