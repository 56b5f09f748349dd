# The points of one plot as a table in Markdown: a row for each size, a column for each call, nanoseconds.
#
#   awk -f table.awk -v plot=text -v across=... POINTS
BEGIN { FS = "\t" }

$1 == plot {
    if (!($3 in number)) { number[$3] = ++calls; name[calls] = $3 }
    if (!($2 in row)) { row[$2] = ++rows; size[rows] = $2 }
    took[row[$2], number[$3]] = $4
}

function shown(v,  text, rest) {
    text = sprintf("%.0f", v); rest = ""
    while (length(text) > 3) { rest = "," substr(text, length(text) - 2) rest; text = substr(text, 1, length(text) - 3) }
    return text rest
}

END {
    if (calls == 0) exit 1
    printf "| %s |", across
    for (c = 1; c <= calls; c++) printf " %s |", name[c]
    printf "\n|---:|"
    for (c = 1; c <= calls; c++) printf "---:|"
    printf "\n"
    for (r = 1; r <= rows; r++) {
        printf "| %s |", shown(size[r])
        for (c = 1; c <= calls; c++) printf " %s |", shown(took[r, c])
        printf "\n"
    }
}
