# Rooms of the blocks in blocks.txt, 100 of each, whose simulators take steps in a random order. In the first 40 of each no simulator crashes, in
# the next 30 some do, and in the last 30 many. Every other room is settled, and each is reported once in the midst and once at the end.
function below(bound) {
    state = (state * 16807) % 2147483647
    return state % bound
}
BEGIN { RS = ""; state = 1000003 }
{
    for (number = 0; number < 100; number++) {
        block = $0
        name = $4 "-" number
        sub(/room [a-z]+/, "room " name, block)
        print "open\n" block
        match($0, /simulators [0-9]+/)
        simulators = substr($0, RSTART + 11, RLENGTH - 11)
        rare = number < 40 ? 0 : number < 70 ? 60 : 12
        for (report = 0; report < 2; report++) {
            for (line = 0; line < 40; line++) {
                simulator = below(simulators)
                if (rare && below(rare) == 0) print "crash " name " " simulator
                else print "step " name " " simulator " " below(9) + 1
            }
            if (report == 1 && number % 2) print "settle " name
            print "report " name
        }
        print "close " name
    }
}
