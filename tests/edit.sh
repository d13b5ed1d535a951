# shellcheck shell=sh
# Edits of crates, for the tests that source this file, with the repository's folder in $root: lines 'file: PATH', 'old: TEXT' and
# 'new: TEXT', as rt's must-fail edits have them. A file holds for the pairs of old and new behind it.

# A folder with the repository's crates, and what rt has kept of them: what was proved by links, which a check replaces and does not
# change, and copies of all else.
roomed() { # ROOM
    rm -rf "$1"
    mkdir -p "$1"
    cp "$root/crates.txt" "$1/"
    cp -al "$root/crates" "$1/crates"
    (cd "$root/crates" && find . -type f ! -name '*.oantt' -print0 | tar cf - --warning=no-file-changed --null -T -) | (cd "$1/crates" && tar xf - --unlink-first)
}

# The crate that a check in a room came to last, by the check's log.
last() { # LOG
    sed -n 's/^rt: chose --jobs [0-9]* for //p' "$1" | tail -n 1
}

# How many checks there are to be at a time.
jobs() {
    n=$(nproc 2>/dev/null || echo 1)
    [ "$n" -le 4 ] || n=4
    echo "$n"
}

# Puts $new in the place of $old, which must stand once in the file $1.
replaced() { # FILE
    OLD=$old NEW=$new awk '
        { text = text $0 "\n" }
        END {
            old = ENVIRON["OLD"]; new = ENVIRON["NEW"]
            at = index(text, old)
            if (old == "" || old == new || !at) exit 3
            rest = substr(text, at + length(old))
            if (index(rest, old)) exit 4
            printf "%s%s%s", substr(text, 1, at - 1), new, rest
        }' "$1" >"$1.edited" && mv "$1.edited" "$1"
}

# Applies an edit to the crate in a folder; says why not, or nothing.
applied() { # EDIT FOLDER
    file='' old='' pairs=0
    while IFS= read -r line || [ -n "$line" ]; do
        case $line in
        'file: '*) file=${line#file: } ;;
        'old: '*) old=${line#old: } ;;
        'new: '*)
            new=${line#new: } pairs=$((pairs + 1))
            replaced "$2/$file" 2>/dev/null || { echo "$(basename "$1"): its old text is not once in $file"; return; }
            ;;
        esac
    done <"$1"
    [ "$pairs" -gt 0 ] || echo "$(basename "$1"): it has no pair of old and new"
}
