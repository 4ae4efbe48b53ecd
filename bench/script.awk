# A script of so many works (-v work=mixed -v count=58000), 1,000,000 bytes at most:
#
#   mixed       lines over 997 groups on a ring of 16: at each node in turn a stand, the delivery of the next message of its
#               link, and a question
#   elect       elections of one group on a ring of three, 3,072 at most, by each node in turn
#
# and, behind 3,000 of these elections, so many
#
#   audit       audits of what the three nodes did
#   recover     crashes of node 1
#   checkpoint  checkpoints of it
function elect(terms, term) {
    print "ring 3 eager 1048576"
    for (term = 1; term <= terms; term++) {
        print "stand", term % 3 + 1, "red", term, 10
        print "deliver all"
    }
}

function repeat(line, at) {
    for (at = 0; at < count; at++)
        print line
}

function mixed(line, turn, node, group, term) {
    print "ring 16"
    for (line = 1; line < count; line++) {
        turn = int((line - 1) / 3)
        node = 1 + turn % 16
        group = "g" turn % 997
        term = 1 + int(turn / 997)
        if (line % 3 == 1)
            printf "stand %d %s %d %d\n", node, group, term, turn * 7919 % 1000000
        else if (line % 3 == 2)
            printf "deliver %d %d\n", node, int(turn / 16)
        else
            printf "who %d %s %d\n", node, group, term
    }
}

BEGIN {
    if (work == "mixed")
        mixed()
    else
        elect(work == "elect" ? count : 3000)
    if (work == "audit")
        repeat("audit")
    else if (work == "recover")
        repeat("crash 1")
    else if (work == "checkpoint")
        repeat("checkpoint 1")
    else if (work != "mixed" && work != "elect")
        exit 2
}
