# Checks a list of sources or pairs and prints it: name=SCRIPT [header=yes] awk -f queries.awk <LIST
# Its lines are `s V` or `q S T`, all of one kind. Comments, blank lines and headers `p aux sp ss K` and
# `p aux sp p2p K` are dropped. With header=yes a header that counts the lines comes first. If there is any other line,
# or none, one line on standard error says so, the status is 1, and nothing is printed.
function refuse(text) { print ENVIRON["name"] ": " text >"/dev/stderr"; refused = 1; exit 1 }
{ sub(/\r$/, "") }
NF == 0 || $1 ~ /^c/ || /^[ \t]*p[ \t]+aux[ \t]+sp[ \t]+(ss|p2p)[ \t]+[0-9]+[ \t]*$/ { next }
!/^[ \t]*(s[ \t]+[0-9]+|q[ \t]+[0-9]+[ \t]+[0-9]+)[ \t]*$/ { refuse("line " NR ": neither `s V` nor `q S T`") }
many && $1 != kind { refuse("line " NR ": sources and pairs do not go together") }
{ kind = $1; lines[++many] = $0 }
END {
    if (refused) exit 1
    if (!many) refuse("no sources or pairs")
    if (ENVIRON["header"]) print "p aux sp", kind == "s" ? "ss" : "p2p", many
    for (i = 1; i <= many; i++) print lines[i]
}
