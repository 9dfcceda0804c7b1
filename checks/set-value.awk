# A session with another value: what is tick, key, priority or stack, which the number of a key or of a task, and value the value. A key of
# an AT line becomes a line of its own, and so do the others of that line.
function hex(text, i) {
    for (i = 1; i <= 95; i++) if (substr(printable, i, 1) == text) return sprintf("%02x", i + 31)
}
BEGIN {
    CONVFMT = OFMT = "%.0f"
    for (i = 32; i <= 126; i++) printable = printable sprintf("%c", i)
    keys = 0
}
{ end = sub(/\r$/, "") ? "\r" : "" }
what == "tick" && /^TICK / { $0 = "TICK " value }
what == "key" && /^KEY / && ++keys == which + 0 { split($0, w, " "); $0 = "KEY " value " " w[3] }
what == "key" && /^AT / {
    split($0, w, " ")
    typed = $0
    sub(/^AT [0-9]+ :/, "", typed)
    if (keys < which + 0 && which + 0 <= keys + length(typed) + 1) {
        for (i = 1; i <= length(typed) + 1; i++)
            print "KEY " (++keys == which + 0 ? value : w[2]) " " (i > length(typed) ? "0a" : hex(substr(typed, i, 1))) end
        next
    }
    keys += length(typed) + 1
}
(what == "priority" || what == "stack") && /^TASK / {
    n = split($0, w, " ")
    if (w[2] + 0 == which + 0) {
        w[what == "priority" ? 3 : 4] = value
        $0 = w[1]
        for (i = 2; i <= n; i++) $0 = $0 " " w[i]
    }
}
{ print $0 end }
