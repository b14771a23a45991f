# Rooms of which a simulator crashes after each number of steps, or two do, and whose others then run until they are idle. Each is reported, settled
# and reported again.
function begin(room, inputs, simulators, rounds, protocol) {
    print "open\nbgsim 1\nroom " room "\ninputs " inputs "\nsimulators " simulators "\nrounds " rounds "\nturns 100\nprotocol\n" protocol "\nend"
}
function stop(room, simulator, steps) {
    if (steps > 0) print "step " room " " simulator " " steps
    print "crash " room " " simulator
}
function finish(room) { print "report " room "\nsettle " room "\nreport " room }
function is_inside(steps) { return steps == 5 || steps == 6 }
BEGIN {
    for (first = 0; first <= 23; first++) {
        room = "pair-" first
        begin(room, "7 3", 2, 1, "first input;\nelse decide min;")
        stop(room, 0, first)
        print "step " room " 1 100"
        finish(room)
    }
    for (first = 0; first <= 11; first++)
        for (second = 0; second <= 11; second++) {
            room = "one-" first "-" second
            begin(room, "5", 3, 1, "first input;\nelse decide mine;")
            stop(room, 0, first)
            if (is_inside(first) && second > 8) print "step " room " 1 " second # it is idle before it would crash
            else stop(room, 1, second)
            print "step " room " 2 100"
            finish(room)
        }
    for (first = 0; first <= 380; first++) {
        room = "full-" first
        begin(room, "1 2 3 4 5 6 7 8", 4, 3, "first input;else write mine;")
        stop(room, 0, first)
        for (simulator = 1; simulator <= 3; simulator++) print "step " room " " simulator " 1000"
        finish(room)
    }
}
