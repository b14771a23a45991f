# Of all reports: what became of the processes, in how many reports more of them are held than simulators have crashed, and how many processes
# have neither decided nor are held by a crash when their room has settled with a simulator left. Then fewer than all but the crashed have decided.
NR == FNR {
    if ($1 == "simulators") simulators[room] = $2
    if ($1 == "room") room = $2
    next
}
$2 == "settled" { is_settled[$1] = 1 }
$2 == "report" { held = decided = other = 0; reports++ }
$2 == "process" { state[$4]++; held += $4 == "held"; decided += $4 == "decided"; other += $4 != "held" && $4 != "decided" }
$2 == "crashed" {
    crashed = NF - 2
    too_many += held > crashed
    if (is_settled[$1] && crashed < simulators[$1]) {
        settled++
        undecided += other
        too_few += decided < held + decided + other - crashed
    }
}
END {
    print reports " reports: " state["decided"] " decided, " state["spent"] + 0 " spent, " state["held"] " held, " state["going"] " going"
    print too_many + 0 " with more held than crashed"
    print settled " settled: " undecided + 0 " neither decided nor held, " too_few + 0 " with too few decided"
}
