# Rooms of the blocks in blocks.txt, 40 of each, whose simulators take steps in a random order. In the first 10 of each no simulator crashes, in
# the next 20 some do, and in the last 10 most. Each room is reported twice, and once more when it has settled.
function below(bound) {
    state = (state * 16807) % 2147483647
    return state % bound
}
BEGIN { RS = ""; state = 1000033 }
{
    simulators = $0
    sub(/.*simulators /, "", simulators)
    sub(/[^0-9].*/, "", simulators)
    for (number = 0; number < 40; number++) {
        block = $0
        name = $4 "-" number
        sub(/room [a-z]+/, "room " name, block)
        print "open\n" block
        rare = number < 10 ? 0 : number < 30 ? 60 : 12
        for (report = 0; report < 3; report++) {
            for (line = 0; line < 40; line++) {
                simulator = below(simulators)
                if (rare && below(rare) == 0) print "crash " name " " simulator
                else print "step " name " " simulator " " below(60) + 1
            }
            if (report == 2) print "settle " name
            print "report " name
        }
    }
}
