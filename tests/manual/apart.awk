# Takes a document apart, for tests/manual/run: into `folder` goes, for each line `$ COMMAND` of a block ```console, N.command and what
# stands under it, N.want; for a block ```console not run here, its commands, one a line, in `unrun`. A block ```LANGUAGE PATH with
# a path under target/ is a file of that path, written under `room`. The number of commands is printed.
function put(file, line) { print line >file }

/^```/ && inside {
    if (want) close(want)
    if (file) close(file)
    inside = 0; run = 0; unrun = 0; file = ""; want = ""
    next
}
/^```/ {
    inside = 1
    run = $0 == "```console"
    unrun = $0 == "```console not run here"
    if (NF == 2 && $2 ~ /^target\//) {
        file = room "/" $2
        folders = file
        sub(/\/[^\/]*$/, "", folders)
        system("mkdir -p '" folders "'")
        printf "" >file
    }
    next
}
file { put(file, $0) }
unrun && /^\$ / { put(folder "/unrun", substr($0, 3)) }
run && /^\$ / {
    if (want) close(want)
    n++
    put(folder "/" n ".command", substr($0, 3))
    close(folder "/" n ".command")
    want = folder "/" n ".want"
    printf "" >want
    next
}
run {
    if (!want) { print FILENAME ": line " FNR ": output without a command" >"/dev/stderr"; bad = 1; exit 1 }
    put(want, $0)
}
END { if (!bad) print n + 0; if (inside) exit 1; exit bad }
