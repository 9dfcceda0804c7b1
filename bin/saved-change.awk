# Changes the text of a saved machine, for ./session resume: it is to take so many steps more, keys are typed at it, and files are put in.
# keys has the new KEY lines; files the new FILE lines, in byte order of the names, each with its bytes after it.

# A key comes when its step has come and those before it have, so the later of the two is when it is due.
function next_key() {
    more = (getline key < keys) > 0
    split(key, part, " ")
    if (more && part[2] > new) new = part[2]
}

function read_files(line) {
    while ((getline line < files) > 0) {
        if (line ~ /^FILE /) name[++count] = substr(line, 6)
        text[count] = text[count] line "\n"
    }
    at = 1
}

# The new files whose names come before this one, or all that are left.
function put_files(before) {
    for (; at <= count && (before == "" || name[at] < before); at++) printf "%s", text[at]
}

BEGIN { next_key(); read_files() }
{ sub(/\r$/, "") }
/^FILE / {
    put_files(substr($0, 6))
    is_replaced = at <= count && name[at] == substr($0, 6)
    if (is_replaced) printf "%s", text[at++]
    in_file = 1
}
in_file && !/^(FILE |:)/ { in_file = is_replaced = 0 }
is_replaced { next }
/^(STREAM|PIPE|KEY|W|GO) / { put_files("") }
/^KEY / {
    if ($2 > old) old = $2
    for (; more && new < old; next_key()) print key
}
/^(W|GO) / { for (; more; next_key()) print key }
/^GO / { print "GO " steps; exit }
{ print }
