# Of a script and its trace: at each report the events of the room so far, in the order of the steps at which they take effect, as a transcript of
# a room of its own. A write and a decision are in the trace where they take effect. A snapshot takes effect at the last read for it of the simulator
# whose proposal is chosen, the least whose proposal stands; which snapshots are agreed on, and what they show, is in the report. On standard error it
# says in how many reports this is another order than that of the history, and which report has other events than the trace.
NR == FNR {
    if ($1 == "bgsim" || $1 == "reduction") { is_block = 1; text = "" }
    if ($1 == "room" && is_block) { name = $2; $2 = "NAME" }
    if (is_block) text = text $0 "\n"
    if ($1 == "end" && is_block) { block[name, (++blocks[name])] = text; is_block = 0 }
    next
}
function sorted(text,    line, count, i, j, key, result) { # its lines, in the order of their bytes
    count = split(text, line, "\n")
    for (i = 2; i <= count; i++) {
        key = line[i]
        for (j = i - 1; j >= 1 && line[j] > key; j--) line[j + 1] = line[j]
        line[j + 1] = key
    }
    for (i = 1; i <= count; i++) result = result line[i] "\n"
    return result
}
function flush_report(    p, r, i, event, order, line) { # the room that was reported last
    if (reported == "") return
    for (p = 0; p < 16; p++) for (r = 1; r <= snaps[p]; r++) for (i = 0; i < 8; i++)
        if ((reported, p, r, i) in stands) { chosen[p, r] = i; break }
    order = ""
    for (event = 1; event <= count[reported]; event++) {
        if (split(event_of[reported, event], part, " ") < 3) continue
        if (part[2] == "read") { # process, read, round, simulator
            p = part[1]; r = part[3]; i = part[4]
            if (r > snaps[p] || chosen[p, r] != i || last_read[reported, p, r, i] != event) continue
            line = row[p, r]
        } else line = event_of[reported, event]
        lines[(++line_count)] = room " " line
        order = order line "\n"
    }
    if (sorted(order) != sorted(history)) print "other events: " room > "/dev/stderr"
    if (order != history) differ++
    reported = ""
}
/^    / {
    if ($0 ~ /^         here: process [0-9]+ writes /) event_of[current, (++count[current])] = $3 " write " $5
    else if ($0 ~ /^         here: process [0-9]+ decides /) event_of[current, (++count[current])] = $3 " decide " $5
    else if ($0 ~ /^         here, if proposed and chosen: /) {
        event_of[current, (++count[current])] = process " read " round " " simulator
        last_read[current, process, round, simulator] = count[current]
    } else if ($2 == "simulator") {
        simulator = $3 + 0; process = $7 + 0; round = $9 + 0
    }
    if ($0 ~ /: its proposal stands$/) stands[current, process, round, simulator] = 1
    next
}
$3 ~ /^(write|snap|decide)$/ {
    events++
    text = $0; sub(/^[^ ]* /, "", text); history = history text "\n"
    if ($3 == "snap") row[$2, (++snaps[$2])] = text
    next
}
$2 == "end" { flush_report() }
$2 ~ /^(process|crashed|history|end)$/ { next }
{ current = $1 SUBSEP opened[$1] }
$2 == "opened" { current = $1 SUBSEP (++opened[$1]) }
$2 == "report" {
    room = $1 "-" opened[$1] "-" (++reports[$1])
    text = block[$1, opened[$1]]
    sub(/NAME/, room, text)
    printf "%s", text
    reported = current; events = 0; history = ""
    split("", snaps); split("", chosen)
}
END {
    print differ + 0 " in another order" > "/dev/stderr"
    print "events"
    for (at = 1; at <= line_count; at++) print lines[at]
}
