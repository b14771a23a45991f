# Simulator 0 writes, and begins a scan. Behind each of its collects another simulator takes steps until it has raised a step number, so the next
# collect differs and the scan goes on, until nobody has a step number left to raise. Then simulator 0 goes on alone.
function opened(name, n, m, rounds) {
    printf "open\nbgsim 2\nroom %s\ninputs", name
    for (process = 0; process < n; process++) printf " %d", n - process
    printf "\nsimulators %d\nrounds %d\nturns 65535\nprotocol\nfirst input;\nelse write mine;\nend\n", m, rounds
    print "step " name " 0 2"
}
function ended(name, m) {
    for (simulator = 0; simulator < m; simulator++) print "step " name " " simulator " 65535"
    print "report " name
}
# As long as a scan of two simulators can be, 74 collects: one raise between each two. From one to the next the simulator makes two collects, stores what it saw, enters, looks,
# leaves, asks, loads the view and an entry for each process that has written, stores a value and raises.
function one_raise_a_collect(name, words, n, rounds) {
    opened(name, n, 2, rounds)
    for (raise = 0; raise < n * rounds; raise++) {
        print "step " name " 0 " words
        print "step " name " 1 " (raise == 0 ? 2 : 2 * words + words + 4 + words + (raise + 1 < n ? raise + 1 : n) + 2)
    }
    ended(name, 2)
}
function some_raises_a_collect(name, words, n, m, rounds) {
    opened(name, n, m, rounds)
    for (raise = 0; raise < n * rounds; raise++)
        for (simulator = 1; simulator < m; simulator++) {
            print "step " name " 0 " words
            print "step " name " " simulator " " (raise ? 60 : 2)
        }
    ended(name, m)
}
BEGIN {
    one_raise_a_collect("two", 2, 9, 8)
    some_raises_a_collect("three", 3, 12, 4, 7)
    some_raises_a_collect("four", 4, 16, 8, 2)
}
