# Draws one plot as SVG: the lines of POINTS (plot, size, call, nanoseconds, between tabs) whose first word is `plot`.
#
#   awk -f draw.awk -v plot=text -v title=... -v across=... -v of="a call" -v scale=linear|log POINTS > PLOT.svg
BEGIN {
    FS = "\t"
    split("#0072b2 #d55e00 #009e73 #cc79a7 #e69f00 #56b4e9", colour, " ")
    width = 720; height = 400; left = 78; right = 110; top = 46; bottom = 56
}

$1 == plot {
    x = $2 + 0; y = $4 + 0
    if (!($3 in number)) { number[$3] = ++calls; name[calls] = $3 }
    c = number[$3]
    points[c]++
    at[c, points[c]] = x; took[c, points[c]] = y
    if (x > most_x) most_x = x
    if (y > most_y) most_y = y
    if (least_x == "" || x < least_x) least_x = x
    if (least_y == "" || y < least_y) least_y = y
}

function log10(v) { return log(v) / log(10) }
function floor(v,  i) { i = int(v); return i > v ? i - 1 : i }
function ceiling(v) { return -floor(-v) }

# The distance of the marks of an axis: 1, 2 or 5 with zeros, so that there are four to eight of them.
function step_for(most,  power, first) {
    power = 10 ^ floor(log10(most / 4)); first = most / 4 / power
    return power * (first >= 5 ? 5 : first >= 2 ? 2 : 1)
}

# A number with commas, and as many decimals as it needs.
function shown(v,  text, whole, rest) {
    if (v < 1 && v > 0) return sprintf("%g", v)
    text = sprintf("%.0f", v); rest = ""
    while (length(text) > 3) { rest = "," substr(text, length(text) - 2) rest; text = substr(text, 1, length(text) - 3) }
    return text rest
}

function across_at(v) {
    if (scale == "log") return left + (log10(v) - low_x) / (high_x - low_x) * (width - left - right)
    return left + v / high_x * (width - left - right)
}
function up_at(v) {
    v /= unit
    if (scale == "log") return height - bottom - (log10(v) - low_y) / (high_y - low_y) * (height - top - bottom)
    return height - bottom - v / high_y * (height - top - bottom)
}

function line(x1, y1, x2, y2, colour) { printf "<line x1=\"%.1f\" y1=\"%.1f\" x2=\"%.1f\" y2=\"%.1f\" stroke=\"%s\"/>\n", x1, y1, x2, y2, colour }
function words(x, y, anchor, more, text) { printf "<text x=\"%.1f\" y=\"%.1f\" text-anchor=\"%s\"%s>%s</text>\n", x, y, anchor, more, text }

function mark_across(v) {
    line(across_at(v), top, across_at(v), height - bottom, "#dddddd")
    words(across_at(v), height - bottom + 18, "middle", "", shown(v))
}
function mark_up(v) {
    line(left, up_at(v * unit), width - right, up_at(v * unit), "#dddddd")
    words(left - 8, up_at(v * unit) + 4, "end", "", shown(v))
}

function axes(  v, step) {
    if (scale == "log") {
        for (v = low_x; v <= high_x; v++) mark_across(10 ^ v)
        for (v = low_y; v <= high_y; v++) mark_up(10 ^ v)
    } else {
        step = step_for(most_x)
        for (v = 0; v <= high_x * 1.0001; v += step) mark_across(v)
        step = step_for(most_y / unit)
        for (v = 0; v <= high_y * 1.0001; v += step) mark_up(v)
    }
    line(left, top, left, height - bottom, "#555555")
    line(left, height - bottom, width - right, height - bottom, "#555555")
}

# The calls' names stand at the ends of their curves, from the highest on, none less than 15 below the one above it.
function names(  i, j, c, t, y, before) {
    for (i = 1; i <= calls; i++) order[i] = i
    for (i = 1; i <= calls; i++)
        for (j = i + 1; j <= calls; j++)
            if (took[order[j], points[order[j]]] > took[order[i], points[order[i]]]) { t = order[i]; order[i] = order[j]; order[j] = t }
    before = -100
    for (i = 1; i <= calls; i++) {
        c = order[i]; y = up_at(took[c, points[c]])
        if (y < before + 15) y = before + 15
        before = y
        words(across_at(at[c, points[c]]) + 9, y + 4, "start", " fill=\"" colour[c] "\"", name[c])
    }
}

function curve(c,  i, path) {
    for (i = 1; i <= points[c]; i++) path = path (i == 1 ? "" : " ") sprintf("%.1f,%.1f", across_at(at[c, i]), up_at(took[c, i]))
    printf "<polyline points=\"%s\" fill=\"none\" stroke=\"%s\" stroke-width=\"2\"/>\n", path, colour[c]
    for (i = 1; i <= points[c]; i++) printf "<circle cx=\"%.1f\" cy=\"%.1f\" r=\"3\" fill=\"%s\"/>\n", across_at(at[c, i]), up_at(took[c, i]), colour[c]
}

END {
    if (calls == 0) exit 1
    unit = most_y >= 2000 ? 1000 : 1
    if (scale == "log") {
        low_x = floor(log10(least_x)); high_x = ceiling(log10(most_x))
        low_y = floor(log10(least_y / unit)); high_y = ceiling(log10(most_y / unit))
    } else {
        step = step_for(most_y / unit)
        high_x = most_x; high_y = ceiling(most_y / unit / step) * step
    }
    printf "<svg xmlns=\"http://www.w3.org/2000/svg\" width=\"%d\" height=\"%d\" viewBox=\"0 0 %d %d\" font-family=\"sans-serif\" font-size=\"12\">\n", width, height, width, height
    printf "<rect width=\"%d\" height=\"%d\" fill=\"white\"/>\n", width, height
    words(left, 22, "start", " font-size=\"15\"", title)
    axes()
    words((left + width - right) / 2, height - 14, "middle", "", across)
    words(left, top - 8, "start", " fill=\"#555555\"", (unit == 1000 ? "microseconds" : "nanoseconds") " " of)
    for (c = 1; c <= calls; c++) curve(c)
    names()
    print "</svg>"
}
