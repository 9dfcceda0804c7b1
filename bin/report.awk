# The report of bin/grade in another form: junit, gradescope, or row, which is the points of all marks, and which marks are not reached. The
# first file is what bin/grade -t tells of the marks, the second the report.

# The byte with this number, as long as awk has it.
function begin_bytes(i) {
    for (i = 1; i < 256; i++) code[sprintf("%c", i)] = i
}

# A text between quotes of JSON: each byte that is no printable ASCII has its number.
function json(text, i, c, made) {
    for (i = 1; i <= length(text); i++) {
        c = substr(text, i, 1)
        if (c == "\"" || c == "\\") made = made "\\" c
        else if (c == "\n") made = made "\\n"
        else made = made (code[c] < 32 || code[c] > 126 ? sprintf("\\u%04x", code[c]) : c)
    }
    return "\"" made "\""
}

# A text of XML, which has no control characters.
function xml(text, i, c, made) {
    for (i = 1; i <= length(text); i++) {
        c = substr(text, i, 1)
        if (c == "&") made = made "&amp;"
        else if (c == "<") made = made "&lt;"
        else if (c == ">") made = made "&gt;"
        else if (c == "\"") made = made "&quot;"
        else if (c == "\n") made = made c
        else made = made (code[c] < 32 ? "?" : code[c] > 126 ? "&#" code[c] ";" : c)
    }
    return made
}

function junit(k, missed) {
    for (k = 1; k <= marks; k++) missed += !is_reached[k]
    print "<?xml version=\"1.0\" encoding=\"UTF-8\"?>"
    print "<testsuite name=\"" xml(title) "\" tests=\"" marks "\" failures=\"" missed + 0 "\">"
    for (k = 1; k <= marks; k++) {
        printf "  <testcase classname=\"%s\" name=\"%s\"", xml(title), xml(name[k])
        if (is_reached[k]) print "/>"
        else print ">\n    <failure message=\"" most[k] " points\">" xml(said[k]) "</failure>\n  </testcase>"
    }
    print "</testsuite>"
}

function gradescope(k) {
    printf "{\"score\": %d, \"output\": %s, \"tests\": [", points, json(title "\n" said[0])
    for (k = 1; k <= marks; k++)
        printf "%s\n  {\"name\": %s, \"score\": %d, \"max_score\": %d, \"status\": \"%s\", \"output\": %s}", (k > 1 ? "," : ""), json(name[k]), \
            (is_reached[k] ? most[k] : 0), most[k], (is_reached[k] ? "passed" : "failed"), json(said[k])
    print "\n]}"
}

function row(k, missed, each) {
    for (k = 1; k <= marks; k++) {
        if (!is_reached[k]) missed = missed (missed == "" ? "" : " ") k
        each = each "," (is_reached[k] ? most[k] : 0)
    }
    print points "," of each "," missed
}

BEGIN { begin_bytes(); files = 0 }
FNR == 1 { files += 1 }
files == 1 {
    if (FNR == 1) title = $0
    if ($0 ~ /^ *[0-9]+ points: /) most[++told] = $1
    next
}
/^(not )?ok [0-9]+ - / {
    marks += 1
    is_reached[marks] = /^ok/
    name[marks] = substr($0, index($0, " - ") + 3)
    next
}
/^# points [0-9]+ of [0-9]+$/ { points = $3; of = $5; next }
/^# / { said[marks + 0] = said[marks + 0] substr($0, 3) "\n" }
END {
    if (form == "junit") junit()
    else if (form == "gradescope") gradescope()
    else row()
}
