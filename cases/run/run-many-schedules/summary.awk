# Of rooms and their reports: how many there are, in how many more processes are held than simulators have crashed, or one has crashed that was not to,
# or not all have decided although none crashed.
FNR == 1 { file++ }
file == 1 && $1 == "room" { room = $2 }
file == 1 && $1 == "crash" { may_crash[room, $2] }
file == 1 { next }
$2 == "report" { reports++; held = undecided = 0 }
$2 == "process" { held += $4 == "held"; undecided += $4 == "going" || $4 == "held" }
$2 == "crashed" {
    too_many += held > NF - 2
    for (at = 3; at <= NF; at++) if (!(($1, $at) in may_crash)) others++
    undone += NF == 2 && undecided
}
END { print reports " reports, " too_many + 0 " with more held than crashed, " others + 0 " crashed that were not to, " undone + 0 " undone with none crashed" }
