# Of a script, the lines that it wrote where memory was refused, and those that it writes else: without the
# rooms that were refused it, and the lines that say so, both have to be the same.
FNR == 1 { file++ }
file == 1 { script[FNR] = $0; next }
file == 2 && $0 ~ /^line [0-9]+ refused 8$/ { split(script[$2 + 1], room, " "); refused[room[2]] = 1; count++; next }
file == 2 && $0 ~ /^[^ ]+ refused 8$/ { refused[$1] = 1; count++ }
{ lines[file, ++number[file]] = $0 }
END {
    for (file = 2; file <= 3; file++) {
        for (i = 1; i <= number[file]; i++) {
            split(lines[file, i], word, " ")
            if (!(word[1] in refused)) left[file] = left[file] lines[file, i] "\n"
        }
    }
    exit !(count > 0 && left[2] == left[3])
}
