# A job of ARCS arcs on 9,000 vertices, drawn from SEED. Each has a number of lines of its own that say nothing, and
# with WRONG two that are wrong. With BLANKS=2 there are two blanks between the fields of an arc: such lines are
# read one by one.
BEGIN {
    srand(SEED)
    blanks = BLANKS == 2 ? "  " : " "
    print "p sp 9000 " ARCS
    for (i = 0; i < WRONG; i++) wrong[int(rand() * ARCS)] = 1
    every = 1 + int(exp(rand() * log(ARCS)))
    for (i = 0; i < ARCS; i++) {
        if (i % every == every - 1) print i % 2 ? "c a comment" : ""
        if (i in wrong) print rand() < 0.5 ? "a 1 9001 1" : "x"
        end = rand() < 0.1 ? "\r" : ""
        print "a" blanks 1 + int(rand() * 9000) blanks 1 + int(rand() * 9000) blanks int(rand() * 1000) end
    }
    print "p aux sp ss 1\ns 1"
}
