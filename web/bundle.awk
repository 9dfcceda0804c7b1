# Puts a module and all modules that it imports into one script, each after those that it imports:
#     awk -v entry=web/src/main.js -f web/bundle.awk
# A module imports by lines `import { name, name } from './module.js';`, and exports by the word `export` before a declaration. The script is
# one scope: it stops where two modules declare the same name at their top level, or where a name is imported that the module has not.
function wrong(text) {
    print "bundle: " text > "/dev/stderr"
    failed = 1
    exit 1
}

function module(path,    line, n, at, i, names, from, folder, text, kept) {
    if (path in state) {
        if (state[path] == "open") wrong(path " imports itself by others")
        return
    }
    state[path] = "open"
    folder = path
    sub(/[^\/]*$/, "", folder)
    text = "// " path "\n"
    while ((kept = (getline line < path)) > 0) {
        n += 1
        at = path ":" n ": "
        if (line ~ /^import /) {
            if (line !~ /^import \{ [A-Za-z0-9_$, ]+ \} from '\.\.?\/[a-z0-9_\/-]+\.js';$/) wrong(at "an import of another form: " line)
            from = line
            sub(/^[^']*'/, folder, from)
            sub(/';$/, "", from)
            gsub(/\/\.\//, "/", from)
            while (sub(/[^\/.]+\/\.\.\//, "", from)) continue
            module(from)
            sub(/^import \{ /, "", line)
            sub(/ \}.*/, "", line)
            i = split(line, names, /, */)
            for (; i >= 1; i--) if (!((from, names[i]) in exported)) wrong(at from " does not export " names[i])
            continue
        }
        if (line ~ /^export /) {
            if (line !~ /^export (async function|function|const|let|class) /) wrong(at "an export of another form: " line)
            sub(/^export /, "", line)
            exported[path, declared(line)] = 1
        }
        if (line ~ /^(async function|function|const|let|var|class)[ *{[]/) {
            if (declared(line) !~ /^[A-Za-z0-9_$]+$/) wrong(at "a declaration at the top level with no name of its own: " line)
            if (declared(line) in place) wrong(at declared(line) " is declared at the top level in " place[declared(line)] " too")
            place[declared(line)] = path
        }
        if (tolower(line) ~ /<\/script|<!--/) wrong(at "no script in a page can have this: " line)
        text = text line "\n"
    }
    if (kept < 0) wrong("there is no file " path)
    close(path)
    state[path] = "done"
    printf "%s", text
}

# the name that a line at the top level declares
function declared(line) {
    sub(/^(async function|function|const|let|var|class)[ *]+/, "", line)
    sub(/[^A-Za-z0-9_$[{].*/, "", line)
    return line
}

BEGIN {
    module(entry)
}
