# What the tables of bench/run come to, as a table in Markdown: each goal, and what was measured.
#
#   awk -f summary.awk RATES
BEGIN { FS = " *[|] *" }

function number(text) { gsub(/,/, "", text); return text + 0 }
function examples(name) { return name == "ipv6-routing" || name == "uplink" || name == "acl" }

# The least and the most of some ratios.
function take(of, ratio) {
    if (!(of in least) || ratio < least[of]) least[of] = ratio
    if (!(of in most) || ratio > most[of]) most[of] = ratio
}
function span(of) { return sprintf(least[of] == most[of] ? "%.2f" : "%.2f to %.2f", least[of], most[of]) }

# A table of times: restriction, call, Polluxvalve, plain C, ratio, unchecked C, ratio and more.
$2 == "restriction" { kind = $3 == "call" ? "times" : $3 == "print" ? "prints" : ""; next }
$2 == "parts" { kind = "orders"; next }
$2 == "contract" { kind = ""; next }
/^\|-/ { next }
kind == "times" && NF > 8 {
    name = $2; call = $3
    if (call ~ /^(load|run-accepted|run-violated)$/) take((name == "small" ? "small " : "other ") (call == "load" ? "load" : "run"), number($6))
    if (call ~ /^run-all-/ && examples(name)) take("run-all", number($8))
    if (call == "run-all-accepted" && name == "acl") each = 1e3 / number($4)
    if ((call == "judge" || call == "translate") && (name == "acl" || name == "small")) take(name " " call, number($6))
}
kind == "prints" && NF > 4 { take("print", number($5)) }
kind == "orders" && NF > 5 { take("compare", number($5)) }

END {
    print "| | goal, at most | measured |"
    print "|---|---:|---:|"
    print "| `load` beside plain C, at `small` | 1.0 | " span("small load") " |"
    print "| `load` beside plain C, elsewhere | 1.3 | " span("other load") " |"
    print "| `run` beside plain C, at `small` | 1.0 | " span("small run") " |"
    print "| `run` beside plain C, elsewhere | 1.3 | " span("other run") " |"
    print "| an entry of `run_all` beside unchecked C, on the examples | 2.5 | " span("run-all") " |"
    print "| `judge` beside plain C, at `small` | 2.0 | " span("small judge") " |"
    print "| `judge` beside plain C, at `acl` | 1.3 | " span("acl judge") " |"
    print "| `translate` beside plain C, at `small` | 2.0 | " span("small translate") " |"
    print "| `translate` beside plain C, at `acl` | 1.3 | " span("acl translate") " |"
    print "| `print` beside `read` | 1.5 | " span("print") " |"
    printf "\nAt `acl` that is %.2f million entries a second by `run_all`. A comparison in the longest orders takes %.2f milliseconds at most.\n", each, most["compare"]
}
