# Writes a graph in the .gr format with roads as on a map: awk -v side=SIDE -f grid.awk >grid.gr
#
# It has SIDE by SIDE crossings, numbered row by row from 1, and streets both ways between neighbours, of lengths from
# 200 to 3199. They are drawn at random, and are the same each time.
function street(from, to) {
    seed = seed * 16807 % 2147483647
    print "a", from, to, 200 + seed % 3000
    print "a", to, from, 200 + seed % 3000
}

BEGIN {
    seed = 1
    print "p sp", side * side, 4 * side * (side - 1)
    for (at = 1; at <= side * side; at++) {
        if (at % side != 0) street(at, at + 1)
        if (at + side <= side * side) street(at, at + side)
    }
}
