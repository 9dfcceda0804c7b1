# What ./session takes for saved machines: resume changes the text of one, and bytes writes a file of it.

# Looks at a saved machine, whose steps so far are then in $taken.
look_at_saved() { # FILE
    [ -f "$1" ] && [ -r "$1" ] || fail 1 "there is no file $1 that can be read"
    head -n 1 "$1" | grep -q '^TRIPOS-IMAGE ' || fail 1 "$1 is no saved machine, which begins with a line TRIPOS-IMAGE; ./tripos save writes one"
    taken=$(sed -n 's/^STEP \([0-9]\{1,10\}\).\{0,1\}$/\1/p;4q' "$1")
    [ -n "$taken" ] || fail 1 "$1 has no line STEP with a number as its fourth"
}

# Lines of a saved machine for the keys of a text and a line end, which are typed at this step.
typed_keys() { # STEP TEXT
    printf '%s\n' "$2" | od -An -v -tx1 | tr -s ' ' '\n' | sed -n "s/^\(..\)\$/KEY $1 \1/p"
}

# The step of a saved machine that has taken so many steps more.
step_after() { # STEPS
    is_step "$1"
    [ $((taken + $1)) -le 4000000000 ] || fail 2 "the machine has taken $taken steps, and no machine takes more than 4000000000; $1 more are too many"
}

# The bytes of standard input as lines of a saved machine, 32 bytes a line.
hex_lines() {
    od -An -v -tx1 | awk '
        { gsub(/ /, ""); line = line $0 }
        NR % 2 == 0 { print ":" line; line = "" }
        END { if (line != "") print ":" line }'
}

# Puts a file in, with the bytes that it has.
put_file() { # NAME PATH
    is_name "$1" || fail 2 "a file's name is 1 to 12 letters, digits, '-', '.' and '_', and not $1"
    [ -f "$2" ] && [ -r "$2" ] || fail 1 "there is no file $2 that can be read"
    ! awk -v name="$1" '$1 == name { found = 1 } END { exit !found }' "$log.put" || fail 2 "an earlier item puts in a file $1 already"
    stream=$(tr -d '\r' < "$saved" | awk -v name="$1" '$1 == "STREAM" && $5 == name { print $2; exit }')
    [ -z "$stream" ] || fail 2 "stream $stream of the machine is open on its file $1"
    printf '%s %s\n' "$1" "$2" >> "$log.put"
}

# That the disc has room for the files of $log.files in the place of those of the machine with their names.
check_disc() {
    tr -d '\r' < "$saved" | awk '
        FNR == 1 { round += 1 }
        /^FILE / { name = substr($0, 6); is_file[name] = 1; of[name] = round; size[name] = 0; next }
        /^:/ && name != "" { size[name] += (length($0) - 1) / 2; next }
        { name = "" }
        END {
            for (name in is_file) { files += 1; sectors += int((size[name] + 511) / 512) }
            if (files > 64) print "the machine would have " files " files, and has at most 64"
            else if (sectors > 4096) print "the files would take " sectors " sectors of 512 bytes, and the disc has 4096"
        }' - "$log.files"
}

resume() {
    [ $# -ge 2 ] || wrong "resume has the most steps and a saved machine after it: resume STEPS FILE ITEM.."
    steps=$1 saved=$2
    shift 2
    look_at_saved "$saved"
    step_after "$steps"
    [ $# -eq 0 ] || ! sed -n 3p "$saved" | grep -q '^BARE' || fail 2 "$saved is a machine without a kernel, at which nothing can be typed, and which has no files"

    make_room
    for part in keys put files; do
        : > "$log.$part" || fail 9 "no temporary file could be made"
    done
    items=0
    while [ $# -ge 1 ]; do
        items=$((items + 1))
        place="item $items ($1${2:+ $2}): "
        case $1 in
            type) [ $# -ge 3 ] || wrong "what is typed has a step and a text: type STEP TEXT" ;;
            key) [ $# -ge 3 ] || wrong "a key has a step and two hex digits: key STEP HH" ;;
            file) [ $# -ge 3 ] || wrong "a file has a name and a path: file NAME PATH" ;;
            *) fail 2 "there is no item $1, but type, key and file" ;;
        esac
        [ "$1" = file ] || step_after "$2"
        case $1 in
            type)
                check_typed "$3"
                typed_keys $((taken + $2)) "$3" >> "$log.keys"
                ;;
            key)
                case $3 in
                    [0-9A-Fa-f][0-9A-Fa-f]) printf 'KEY %s %s\n' $((taken + $2)) "$(printf '%s' "$3" | tr A-F a-f)" >> "$log.keys" ;;
                    *) fail 2 "a key is two hex digits, and not $3" ;;
                esac
                ;;
            file) put_file "$2" "$3" ;;
        esac
        shift 3
    done
    place=
    LC_ALL=C sort -k 1,1 "$log.put" | while read -r name path; do
        echo "FILE $name"
        hex_lines < "$path"
    done > "$log.files"
    said=$([ ! -s "$log.files" ] || check_disc)
    [ -z "$said" ] || fail 2 "$said"
    begun=1
    LC_ALL=C awk -v steps="$steps" -v keys="$log.keys" -v files="$log.files" "$(cat "$top/bin/saved-change.awk")" "$saved" 2> /dev/null || unwritten
}

# Writes the bytes of a file of a saved machine.
bytes() {
    [ $# -eq 2 ] || wrong "bytes has the name of a file and a saved machine after it: bytes NAME FILE"
    look_at_saved "$2"
    tr -d '\r' < "$2" | awk -v line="FILE $1" '$0 == line { found = 1 } END { exit !found }' || fail 1 "the machine of $2 has no file $1"
    # printf writes any byte that is given by three octal digits
    tr -d '\r' < "$2" | awk -v name="FILE $1" '
        BEGIN { for (i = 0; i < 256; i++) octal[sprintf("%02x", i)] = sprintf("\\%03o", i) }
        /^[A-Z]/ { in_file = $0 == name; next }
        in_file {
            line = ""
            for (i = 2; i < length($0); i += 2) line = line octal[substr($0, i, 2)]
            print line
        }' | while read -r line; do
        # the digits are a format
        # shellcheck disable=SC2059
        printf "$line" 2> /dev/null || exit 1
    done || unwritten
}
