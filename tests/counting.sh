# shellcheck shell=sh disable=SC2154
# For the tests that source this file, in the repository's root with a folder $work: counts what passed and failed, and finds the
# commands that are needed.
passed=0 failed=0

finish() {
    echo "$passed passed, $failed failed"
    [ "$failed" -eq 0 ] && [ "$passed" -gt 0 ]
    exit
}

verdict() { # NAME STATUS: counts one test
    if [ "$2" -eq 0 ]; then
        passed=$((passed + 1))
        printf 'ok: %s\n' "$1"
    else
        failed=$((failed + 1))
        printf 'FAILED: %s\n' "$1"
    fi
}

need() { # COMMAND: is there, or is installed by the package of its name
    command -v "$1" >/dev/null && return
    if [ "$(id -u)" -eq 0 ] && command -v apt-get >/dev/null; then
        echo "installing $1"
        { apt-get install -y -qq "$1" || { apt-get update -qq && apt-get install -y -qq "$1"; }; } >"$work/install.log" 2>&1
    fi
    command -v "$1" >/dev/null && return
    verdict "$1 is not there, and could not be installed" 1
    finish
}
