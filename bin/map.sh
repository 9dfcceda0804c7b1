# What ./session takes for the map of a session, which says where each line of its programs is; bin/where and bin/debug read it.
#
# Its lines are
#     program NAME FILE               the program of this name comes from this file
#     hunk NAME WORD..                the words of its hunk in the store, in hex; - is a word that is relocated
#     at NAME BYTE                    on a bare machine: the byte address of its hunk, whose code begins 4 bytes after
#     line NAME OFFSET LINE LABEL     a line of the file: the offset of its bytes in the hunk, and the label that is last
#                                     before it or on it; - if there is none

# Where a hunk is loaded, its words are these. The module is standard input.
hunk_of() { # NAME HUNK
    awk -v name="$1" -v h="$2" "$reads_modules"'
        END {
            for (k = 1; k <= relocations[h]; k++) hex[h, relocated[h, k]] = "-"
            printf "hunk %s", name
            for (i = 0; i < size[h]; i++) printf " %s", hex[h, i]
            print ""
        }'
}

# Adds a hunk of a program to the map: the file's module is in $module, the hunk's assembly in $plain.
map_hunk() { # NAME FILE HUNK
    printf 'program %s %s\n' "$1" "$2" >> "$map"
    printf '%s\n' "$module" | hunk_of "$1" "$3" >> "$map"
    "$top/bin/tool" asm-places < "$plain" > "$log.places" || fail 9 "the lines of $2 could not be placed"
    sed "s/^/line $1 /" "$log.places" >> "$map"
}

# Adds a program to the map, if there is to be one and it does not have it. The hunks of a module text are NAME, NAME.2 and so on, with the
# lines of what bin/unasm makes of the text.
add_to_map() { # NAME FILE
    [ -n "$map" ] && ! grep -q "^program $1 " "$map" || return 0
    case $2 in
        *.module) ;;
        *) map_hunk "$1" "$2" 1; return ;;
    esac
    "$top/bin/unasm" "$2" > "$log.whole" || exit 1
    hunk=1 count=$(grep -c '^; HUNK ' "$log.whole") plain=$log.plain
    while [ "$hunk" -le "$count" ]; do
        awk -v hunk="$hunk" '/^; HUNK / { n += 1 } { print (n == hunk ? $0 : "") }' "$log.whole" > "$plain"
        if grep -q '^; HUNK [0-9]*, as words' "$plain"; then
            note "hunk $hunk of $2 is not in the map: no assembly makes it"
        else
            map_hunk "$1$([ "$hunk" -eq 1 ] || echo ".$hunk")" "$2" "$hunk"
        fi
        hunk=$((hunk + 1))
    done
}

# Begins the map, if there is to be one.
begin_map() {
    [ -z "$map" ] || : > "$map" || fail 9 "$map cannot be written"
}

# How many bytes of code the module on standard input has, between the hunk's length and its global table.
code_size() {
    awk "$reads_modules"'END { read_globals(1); print (table_at[1] > 1 ? 4 * (table_at[1] - 1) : 0) }'
}

# Adds the programs of a bare machine, each with the byte of its hunk.
map_bare() { # FILE..
    at=796
    for file in "$@"; do
        assemble "$file"
        program_name "$file"
        ! grep -q "^program $name " "$map" || fail 2 "two files have the name $name, which a map cannot tell apart"
        add_to_map "$name" "$file"
        printf 'at %s %s\n' "$name" "$at" >> "$map"
        at=$((at + $(printf '%s\n' "$module" | code_size)))
    done
}

# Adds a program of a machine with a kernel.
map_program() { # FILE
    assemble "$1"
    program_name "$1"
    add_to_map "$name" "$1"
}

# Adds the programs of items.
map_items() { # ITEM..
    while [ $# -ge 1 ]; do
        case $1 in
            task) shift 4 ;;
            program)
                map_program "$2"
                shift 2
                ;;
            *)
                shift 3
                continue
                ;;
        esac
        while :; do
            case $1 in *.asm | *.s | *.module) map_program "$1" ;; *) break ;; esac
            shift
        done
    done
}

# Makes the map of a session that is made.
map_session() { # WORD..
    begin_map
    case $task in
        bare) map_bare "$@" ;;
        *) map_items "$@" ;;
    esac
}
