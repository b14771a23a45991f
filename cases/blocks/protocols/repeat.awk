# [33 (] in a line stands for 33 times (
{
    while (match($0, /\[[0-9]+ [^]]*\]/)) {
        part = substr($0, RSTART + 1, RLENGTH - 2)
        times = part + 0
        part = substr(part, index(part, " ") + 1)
        text = ""
        while (times-- > 0)
            text = text part
        $0 = substr($0, 1, RSTART - 1) text substr($0, RSTART + RLENGTH)
    }
    print
}
