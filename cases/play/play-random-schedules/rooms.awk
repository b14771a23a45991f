# Rooms of the blocks in blocks.txt, 60 of each, whose simulators take steps in a random order. In the first 20 of each no simulator crashes, in
# the next 20 some do, and in the last 20 most. Each room is reported four times.
function below(bound) {
    state = (state * 16807) % 2147483647
    return state % bound
}
BEGIN { RS = ""; state = 1000003 }
{
    for (number = 0; number < 60; number++) {
        block = $0
        room = "room " $4 "-" number
        sub(/room [a-z]+/, room, block)
        print "open\n" block
        rare = number < 20 ? 0 : number < 40 ? 60 : 12
        for (report = 0; report < 4; report++) {
            for (line = 0; line < 50; line++) {
                simulator = below($0 ~ /simulators 2/ ? 2 : $0 ~ /simulators 3/ ? 3 : $0 ~ /simulators 4/ ? 4 : 8)
                if (rare && below(rare) == 0) print "crash " $4 "-" number " " simulator
                else print "step " $4 "-" number " " simulator " " below(5) + 1
            }
            print "report " $4 "-" number
        }
    }
}
