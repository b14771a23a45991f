# Of each pair: how many steps simulator 1 takes once simulator 0 has crashed, the states of the processes, and the history. Of each room with one
# process: who holds it, or that it has decided, the steps of the last simulator, how many have crashed, and the number of events.
$2 == "step" { steps[$3] = $4; asked_more[$3] += $5 == "idle" }
$2 == "report" { report[$1]++; states = ""; history = ""; held = 0 }
$2 == "process" { states = states ", " $3 " " $4 " " $5; state = $4 == "held" ? $5 : "d"; held += $4 == "held" }
$2 == "crashed" { crashed = NF - 2; too_many += held > crashed; if (crashed && $3 != 0) others++ }
$2 == "history" { events = $3 }
$2 ~ /^[0-9]+$/ { $1 = ""; history = history "," $0 }
$2 == "end" && report[$1] == 2 {
    split($1, part, "-")
    if (part[1] == "pair") print part[2] ": " steps[1] states ":" substr(history, 2)
    if (part[1] == "one") row[part[2]] = row[part[2]] " " state "," steps[2] "," crashed "," events
    if (part[1] == "full") full++
    delete steps
}
END {
    for (first = 0; first <= 11; first++) print first ":" row[first]
    print full " more, " too_many + 0 " reports with more held than crashed, " others + 0 " in which simulator 0 has not crashed"
}
