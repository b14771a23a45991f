# Of each room: how many simulators were idle at last, how many processes are spent, and how many events there are.
$2 == "opened" { delete last; spent = 0 }
$2 == "step" { last[$3] = $5 }
$2 == "process" { spent += $4 == "spent" }
$2 == "history" {
    idle = 0
    for (simulator in last) idle += last[simulator] == "idle"
    print $1 ": " idle " idle, " spent " spent, " $3 " events"
}
