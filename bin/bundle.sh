# What ./session and the doors in bin/ share whose tools take a bundle (docs/manual/bundles.md). The length of a word is that in bytes, so
# LC_ALL is C where they are called. $top is the folder of ./tripos.

# A word.
word() { # WORD
    printf 'word %d\n%s\n' "${#1}" "$1"
}

# A word that names a file, with the bytes of the file, which may be at another path.
named() { # NAME PATH
    printf 'file %d %d\n%s\n' "${#1}" "$(wc -c < "$2")" "$1" && cat "$2" && echo
}

# The same of a file at its path, or the path of one that cannot be read.
path() { # PATH
    if [ -f "$1" ] && [ -r "$1" ]; then
        named "$1" "$1"
    else
        printf 'none %d\n%s\n' "${#1}" "$1"
    fi
}

# Puts a session into $room/session, and what it is called into $shown. It may be -, for standard input. The script says by fail what is wrong.
take_session() { # SESSION
    shown=$1
    if [ "$1" = - ]; then
        shown="standard input"
        cat > "$room/session" || fail 9 "standard input could not be read"
        # what a failed ./session leaves in a pipe: it has said why
        [ "$(head -n 1 "$room/session")" != '* no session' ] || exit 9
    else
        [ -f "$1" ] && [ -r "$1" ] || fail 2 "there is no file $1 that can be read"
        cat "$1" > "$room/session" || fail 9 "$1 could not be copied"
    fi
}

# Says on standard error what is wrong, by the answer of a tool in a file, and ends with the status that it has. Of a session that is refused, or
# does not boot, ./tripos says it, by a command that reads as much of it as the tool: `debug`, or `state` where no lines may follow GO.
refuse_answer() { # ANSWER NAME [COMMAND] < SESSION
    { read -r _ status; read -r closing; } < "$1"
    case $closing in
        '* '*)
            said=$(INPUT_NAME=${INPUT_NAME:-$2} "$top/tripos" "${3:-debug}" 2>&1 > /dev/null)
            printf '%s\n' "${said:-$closing}" >&2
            ;;
        *) sed 1d "$1" >&2 ;;
    esac
    exit "$status"
}
