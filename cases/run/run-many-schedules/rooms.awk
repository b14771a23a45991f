# Many rooms of one kind, in which simulators crash after numbers of steps that are listed or drawn.
function below(bound) {
    state = (state * 16807) % 2147483647
    return state % bound
}
function room(inputs, simulators, rounds, protocol) {
    print "bgsim 1\nroom r" number++ "\ninputs " inputs "\nsimulators " simulators "\nrounds " rounds "\nturns 100\n" crashes "protocol\n" protocol "\nend"
    crashes = ""
}
function draw(simulators, chance, most,    simulator) {
    for (simulator = 0; simulator < simulators; simulator++)
        if (below(chance) == 0) crashes = crashes "crash " simulator " after " below(most) "\n"
}
function drawn(    inputs, count, simulators) {
    inputs = below(10)
    for (count = below(4); count > 0; count--) inputs = inputs " " below(10)
    simulators = below(4) + 1
    draw(simulators, 2, 60)
    room(inputs, simulators, below(3) + 1, "first input;\nwhen round < 2 write min + 1;\nwhen count >= 3 decide max;\nelse write mine;")
}
BEGIN {
    state = 1000003
    if (kind == "pairs") while (number < 200) room("7 3", 2, 1, "first input;\nelse decide min;")
    if (kind == "crashes")
        for (first = 0; first <= 11; first++)
            for (second = 0; second <= 11; second++) {
                crashes = "crash 0 after " first "\ncrash 1 after " second "\n"
                room("5", 3, 1, "first input;\nelse decide mine;")
            }
    if (kind == "wide")
        while (number < 300) {
            draw(8, 3, 120)
            room("1 2 3 4 5 6 7 8", 8, 1, "first input;\nelse decide min;")
        }
    if (kind == "drawn") while (number < 200) drawn()
}
