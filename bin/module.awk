# What the scripts share that read module texts. A text is good; bin/text-errors says what is wrong in another. Of each hunk h, from 1 on:
# size[h] is the number of its words, hex[h, i] its word i as 8 hex digits, relocations[h] how many words are relocated, and relocated[h, k] the
# offset of the k-th. file_of[h] is the file that it comes from; there may be several files.

function number(digits, i, n) {
    n = 0
    for (i = 1; i <= length(digits); i++) n = 16 * n + index("0123456789abcdef", substr(digits, i, 1)) - 1
    return n
}

function word(h, i) {
    return number(hex[h, i])
}

# A token of the text: left is how many words of a hunk or of a list are still to come.
function take(token, value) {
    if (left > 0) {
        left -= 1
        if (in_list) relocated[hunks, ++relocations[hunks]] = number(token)
        else hex[hunks, size[hunks]++] = substr("0000000" token, length(token))
        return
    }
    value = number(token)
    if (is_length_due) left = value
    else if (value == 1000) { hunks += 1; size[hunks] = relocations[hunks] = in_list = 0; file_of[hunks] = FILENAME }
    else if (value == 1001) in_list = 1
    is_length_due = !is_length_due && value != 1002
}

BEGIN {
    # numbers up to 4294967295 are written in full, which not every awk does by itself
    CONVFMT = OFMT = "%.0f"
}

{
    gsub(/\r/, " ")
    for (field = 1; field <= NF; field++) take(tolower($field))
}

# The pairs of the global table that a hunk ends with, the last one first: numbers[h] of them, number_of[h, k] with the offset place_of[h, k].
# table_at[h] is the word at which the table begins.
function read_globals(h, i) {
    numbers[h] = 0
    i = size[h] - 1
    if (i >= 0 && word(h, i) != 0)
        for (i -= 1; i > 0 && word(h, i) != 0; i -= 2) {
            numbers[h] += 1
            number_of[h, numbers[h]] = word(h, i - 1)
            place_of[h, numbers[h]] = word(h, i)
        }
    table_at[h] = i
}

# Whether the pair sets a global.
function sets(h, k) {
    return number_of[h, k] >= 1 && number_of[h, k] <= 1000
}

function print_words(list, count, i) {
    for (i = 1; i <= count; i++) printf "%s%s", list[i], (i % 8 == 0 || i == count ? "\n" : " ")
}

# All hunks as one module.
function print_module(h, i, list) {
    for (h = 1; h <= hunks; h++) {
        printf "000003e8 %08x\n", size[h]
        for (i = 0; i < size[h]; i++) list[i + 1] = hex[h, i]
        print_words(list, size[h])
        if (relocations[h] == 0) continue
        printf "000003e9 %08x\n", relocations[h]
        for (i = 1; i <= relocations[h]; i++) list[i] = sprintf("%08x", relocated[h, i])
        print_words(list, relocations[h])
    }
    print "000003ea"
}
