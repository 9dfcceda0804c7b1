# The lines of the text of a saved machine, and what bin/saved answers. The rules of its kernel are in saved-rules.awk.

# ---- what is said

# One line, and no more.
function refuse(number, sentence, code) {
    printf "line %s: %s (code %s)\n", number, sentence, code
    refused = 1
    exit 1
}

function breaks(sentence) {
    refuse(last_line, sentence, 10)
}

function shown(text) {
    if (text == "") return "an empty line"
    gsub(/[^ -~]/, "?", text)
    if (length(text) > 60) text = substr(text, 1, 57) "..."
    return "\"" text "\""
}

function expect(what) {
    refuse(NR, "expected " what ", but found " shown($0), 1)
}

function count(n, one, more) {
    return n " " (n == 1 ? one : more)
}

# ---- the parts of a line

function begins(word) {
    return substr($0, 1, length(word)) == word
}

function is_number(text) {
    return text ~ /^[0-9]+$/ && length(text) <= 10
}

function is_field(text) {
    return text != "" && text !~ /[^!-~]/
}

function is_hex(text) {
    return text !~ /[^0-9a-f]/ && length(text) % 2 == 0
}

# a colon and hex
function is_bytes(text) {
    return substr(text, 1, 1) == ":" && is_hex(substr(text, 2))
}

# how many bytes these are
function bytes_in(text) {
    return (length(text) - 1) / 2
}

function is_name(text) {
    return is_field(text) && length(text) <= 12 && text !~ /[^A-Za-z0-9._-]/
}

# The parts of a line after its first word, in part[]: so many, the first ones numbers.
function has_parts(word, parts, numbers,    i) {
    if (split(substr($0, length(word) + 2), part, "[ ]") != parts) return 0
    for (i = 1; i <= numbers; i++) {
        if (!is_number(part[i])) return 0
        # some awks take digits after a 0 for octal ones
        sub(/^0+/, "", part[i])
        part[i] += 0
    }
    return 1
}

function range(what, n, least, most) {
    if (n < least || n > most)
        refuse(NR, what " is " (least == 0 && most == 1 ? "0 or 1" : "from " least " to " most) ", but found " n, 2)
}

function lawful(name) {
    if (!is_name(name))
        refuse(NR, "a name has 1 to 12 bytes, which are letters, digits, \"-\", \".\" and \"_\", but found " shown(name), 2)
}

# The number of a line that is a word and a number.
function number_line(word, what, least, most) {
    if (!begins(word " ") || !has_parts(word, 1, 1)) expect(expected[at])
    range(what, part[1], least, most)
    return part[1]
}

function word_of(digits) {
    return byte_of[substr(digits, 1, 2)] * 16777216 + byte_of[substr(digits, 3, 2)] * 65536 \
        + byte_of[substr(digits, 5, 2)] * 256 + byte_of[substr(digits, 7, 2)]
}

# What may be here, where files, streams and all else are told.
function expected_here() {
    return at == 9 && files > 0 && file_size[files] % 32 == 0 ? "bytes of the file " file_name[files] ", or " expected[9] : expected[at]
}

# ---- the lines of the head

function head_line() {
    if (at == 1) {
        if ($0 ~ /^TRIPOS [12]$/) refuse(NR, "this is a session, which ./tripos run reads; ./tripos save makes a saved machine of one", 1)
        if ($0 != "TRIPOS-IMAGE 1" && $0 != "TRIPOS-IMAGE 2") expect(expected[1])
        version = substr($0, 14) + 0
        most_words = version == 1 ? 262144 : 4194304
    } else if (at == 2) {
        size = number_line("STORE", "the number of words in version " version, 1024, most_words)
        if (size % 2 == 1) refuse(NR, "the number of words is even, but found " size, 2)
    } else if (at == 3) {
        bare = $0 == "BARE"
        if (!bare) period = number_line("TICK", "the period", 1, 1000000)
    } else if (at == 4) {
        steps = number_line("STEP", "the number of steps taken", 0, most_steps)
    } else if (at == 5) {
        if (!begins("REGS ") || !has_parts("REGS", 6, 6)) expect(expected[5])
        for (i = 1; i <= 6; i++) {
            range("the register " register[i], part[i], 0, i == 3 ? 255 : 4294967295)
            value[i] = part[i]
        }
    } else if (at == 6) {
        if (!begins("RING ") || !has_parts("RING", 1, 0) || !is_bytes(part[1])) expect(expected[6])
        ahead = substr(part[1], 2)
    } else if (at == 7) {
        if (!begins("CONSOLE ") || !has_parts("CONSOLE", 2, 1) || !is_bytes(part[2])) expect(expected[7])
        range("the mark of a finished line", part[1], 0, 1)
        finished = part[1]
        console_size = bytes_in(part[2])
    } else {
        if (!begins("SHELL ") || !has_parts("SHELL", 3, 2) || !is_bytes(part[3])) expect(expected[8])
        range("the mode of the shell", part[1], 0, 3)
        if (part[1] == 2) range("the number of the task that the shell waits for", part[2], 0, 4294967295)
        else if (part[2] != 0)
            refuse(NR, "the shell waits for a task in mode 2 alone, and here it waits for " part[2] " in mode " part[1], 2)
        mode = part[1]
        awaited = part[2]
        shell_size = bytes_in(part[3])
    }
    at = at == 5 && bare ? 13 : at + 1
}

# ---- those of files, streams, pipes, keys and words, and the last one

function entry_line() {
    if (begins("FILE ")) file_line(substr($0, 6))
    else if (begins(":")) byte_line()
    else if (begins("STREAM ")) stream_line()
    else if (begins("PIPE ")) pipe_line()
    else if (begins("KEY ")) key_line()
    else if (begins("W ")) word_line()
    else if (begins("GO ")) go_line()
    else expect(expected_here())
}

function file_line(name) {
    if (!is_field(name)) expect("FILE and a name without blanks")
    if (at > 9) expect(expected[at])
    # the letter before them keeps an awk from comparing names as numbers
    if (files > 0 && !("n" file_name[files] < "n" name))
        refuse(NR, "the names of files rise in byte order, and " shown(name) " is not after " file_name[files], 1)
    lawful(name)
    file_name[++files] = name
    file_size[files] = 0
    number_of_file[name] = files
}

function byte_line(    n) {
    n = bytes_in($0)
    if (!is_bytes($0) || n < 1 || n > 32) expect("a colon and 1 to 32 bytes in hex, in lower case")
    if (at > 9 || files == 0) expect(expected[at])
    if (file_size[files] % 32 != 0)
        refuse(NR, "expected no more bytes of " file_name[files] \
            ", since the line before has fewer than 32, but found " shown($0), 1)
    file_size[files] += n
}

function stream_line(    k) {
    if (!has_parts("STREAM", 4, 3) || !is_field(part[4])) expect("STREAM, its number, 0 or 1, its position, and the name of its file")
    if (at > 10) expect(expected[at])
    k = part[1]
    if (k < floor_of_streams) refuse(NR, "the numbers of streams rise, and " k " is not above " (floor_of_streams - 1), 1)
    range("the number of a stream", k, 1, 17)
    range("the mark of a stream that writes", part[2], 0, 1)
    range("the position of a stream", part[3], 0, 4294967295)
    lawful(part[4])
    stream_number[++streams] = k
    stream_writes[streams] = part[2]
    stream_position[streams] = part[3]
    stream_file[streams] = part[4]
    floor_of_streams = k + 1
    at = 10
}

function pipe_line(    k) {
    if (!has_parts("PIPE", 6, 4) || !is_field(part[5]) || !is_bytes(part[6]))
        expect("PIPE, its number, three marks of 0 or 1, its name, and a colon with the bytes that it holds, in hex")
    if (at > 11) expect(expected[at])
    k = part[1]
    if (k < floor_of_pipes) refuse(NR, "the numbers of pipes rise, and " k " is not above " (floor_of_pipes - 1), 1)
    range("the number of a pipe", k, 1, 8)
    range("the mark of an open end that reads", part[2], 0, 1)
    range("the mark of an open end that writes", part[3], 0, 1)
    range("the mark of an end that was ever opened to write", part[4], 0, 1)
    lawful(part[5])
    pipe_number[++pipes] = k
    pipe_reading[pipes] = part[2]
    pipe_writing[pipes] = part[3]
    pipe_written[pipes] = part[4]
    pipe_name[pipes] = part[5]
    pipe_held[pipes] = bytes_in(part[6])
    floor_of_pipes = k + 1
    at = 11
}

function key_line() {
    if (!has_parts("KEY", 2, 1) || length(part[2]) != 2 || !is_hex(part[2]))
        expect("KEY, a step, and a byte of two hex digits in lower case")
    if (at > 12) expect(expected[at])
    range("the step of a key", part[1], 0, most_steps)
    keys++
    at = 12
}

function word_line(    a, w) {
    if (!has_parts("W", 2, 1) || length(part[2]) != 8 || !is_hex(part[2]))
        expect("W, an address, and a word of eight hex digits in lower case")
    if (at > 13) expect(expected[at])
    a = part[1]
    w = word_of(part[2])
    if (a < floor_of_words) refuse(NR, "the addresses of words rise, and " a " is not above " (floor_of_words - 1), 1)
    if (a >= size) refuse(NR, "a store of " size " words has the addresses 0 to " (size - 1) ", but found " a, 2)
    if (w == 0) refuse(NR, "only a word that is not 0 has a line, and here word " a " is 0", 2)
    word[a] = w
    floor_of_words = a + 1
    at = 13
}

function go_line() {
    if (!has_parts("GO", 1, 1)) expect("GO and the number of steps to take")
    if (at > 13) expect(expected[at])
    if (steps + part[1] > most_steps)
        refuse(NR, "a machine takes " most_steps " steps at most, and " steps " taken and " part[1] " to take are more", 2)
    go = part[1]
    last_line = NR
    at = 14
}

# ---- the text

BEGIN {
    # whole numbers are written with all their digits
    CONVFMT = "%.17g"
    OFMT = "%.17g"
    most_steps = 4000000000
    minus_1 = 4294967295
    minus_2 = 4294967294
    for (i = 0; i < 256; i++) byte_of[sprintf("%02x", i)] = i
    split("A B C P G PC", register, " ")
    expected[1] = "TRIPOS-IMAGE 1 or TRIPOS-IMAGE 2"
    expected[2] = "STORE and the number of words"
    expected[3] = "TICK and the period, or BARE"
    expected[4] = "STEP and the number of steps taken"
    expected[5] = "REGS and six numbers, the registers A, B, C, P, G and PC"
    expected[6] = "RING and a colon with the bytes that are typed ahead, in hex"
    expected[7] = "CONSOLE, 0 or 1, and a colon with the bytes of the line, in hex"
    expected[8] = "SHELL, its mode, the task that it waits for or 0, and a colon with the bytes of its line, in hex"
    expected[9] = "a FILE, STREAM, PIPE, KEY, W or GO line"
    expected[10] = "a STREAM, PIPE, KEY, W or GO line"
    expected[11] = "a PIPE, KEY, W or GO line"
    expected[12] = "a KEY, W or GO line"
    expected[13] = "a W or GO line"
    expected[14] = "the end of the text after the GO line"
    at = 1
}

# the end of the text: it is no line, or the end of one that has no line end
/\001$/ {
    if ($0 == "\001") { ended = 1; next }
    sub(/.$/, "")
    open = 1
}

{
    if (!open) sub(/\r$/, "")
    if (at <= 8) head_line()
    else entry_line()
}

END {
    if (refused) exit 1
    lines = NR - ended
    if (at != 14) refuse(lines + 1, "expected " expected_here() ", and the text ends", 3)
    if (!bare) check_kernel()
    summary()
}
