# Rooms whose step numbers fill their memory, 64 bits in version 1 and 256 in version 2: version, processes, simulators, and the least and the
# greatest number of rounds. Their simulators take one step each in turn.
{
    for (rounds = $4; rounds <= $5; rounds++) {
        room = "n" $2 "-m" $3 "-r" rounds
        print "open\nbgsim " $1 "\nroom " room
        printf "inputs"
        for (process = 0; process < $2; process++) printf " 7"
        print "\nsimulators " $3 "\nrounds " rounds "\nturns 65535\nprotocol\nfirst input;else write mine;\nend"
        for (step = 0; step < ($1 == 1 ? 25 : 45) * $2 * rounds; step++)
            for (simulator = 0; simulator < $3; simulator++) print "step " room " " simulator " 1"
        print "report " room
    }
}
