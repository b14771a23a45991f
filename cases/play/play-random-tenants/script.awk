# 80 commands in a random order to the rooms a, b and c, or those of them to the rooms in `names`.
function below(bound) {
    seed = (seed * 16807) % 2147483647
    return seed % bound
}
BEGIN {
    block = "bgsim 1\nroom NAME\ninputs 7 3\nsimulators 2\nrounds 1\nturns 3\nprotocol\nfirst input;\nelse decide min;\nend"
    for (line = 0; line < 80; line++) {
        name = substr("abc", below(3) + 1, 1)
        simulator = below(3)
        kind = below(12)
        count = below(30) + 1
        if (index(names, name) == 0) continue
        if (kind == 0) print "close " name
        else if (kind <= 2) print "report " name
        else if (kind == 3) print "settle " name
        else if (kind == 4) print "crash " name " " simulator
        else if (kind <= 6) { text = block; sub(/NAME/, name, text); print "open\n" text }
        else print "step " name " " simulator " " count
    }
}
