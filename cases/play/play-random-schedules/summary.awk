# Of all reports: what became of the processes, in how many reports more of them are held than simulators have crashed, and how many processes are
# decided otherwise than in the history.
$2 == "report" { held = 0; delete decided; reports++ }
$2 == "process" { state[$4]++; held += $4 == "held"; if ($4 == "decided") decided[$3] = $5 }
$2 == "crashed" { too_many += held > NF - 2 }
$3 == "decide" { if (decided[$2] != $4) others++; delete decided[$2] }
$2 == "end" { for (process in decided) others++ }
END {
    print reports " reports: " state["decided"] " decided, " state["spent"] " spent, " state["held"] " held, " state["going"] " going"
    print too_many + 0 " with more held than crashed"
    print others + 0 " decided otherwise than in the history"
}
