# What the scripts that test commands share. Sourced at the top of the repository, with `limit` set to how many
# seconds a command may take.
# shellcheck shell=sh disable=SC2034,SC2154 # some names are for the scripts alone, and limit is theirs
root=$(pwd)
scratch=$(mktemp -d) || exit 1
trap 'rm -rf "$scratch"' EXIT
trap 'exit 1' HUP INT TERM
out=$scratch/out err=$scratch/err ended=$scratch/ended want=$scratch/want
passed=0 failed=0

# Runs a command, and keeps what it writes and its exit status.
try() {
    timeout "$limit" "$@" >"$out" 2>"$err"
    echo $? >"$ended"
}

report() { # NAME, and what differed, if anything did
    if [ -z "$2" ]; then
        echo "ok $1"
        passed=$((passed + 1))
    else
        echo "FAILED $1: $2"
        failed=$((failed + 1))
    fi
}

# The last line, and the end.
finish() {
    echo "$passed passed, $failed failed"
    [ "$failed" -eq 0 ]
    exit
}

# The first line of a file, without bytes that are no text.
first() { head -n 1 "$1" | tr -cd ' -~'; }

# Where the output first differs from a file.
differs_at() { cmp "$out" "$1" 2>&1 | sed 's/.*\(byte [0-9]*\).*/they differ at \1/'; }

# What differs from a wanted exit status, output (a file) and word in the messages
# (the empty word: no message at all).
difference() { # STATUS OUTPUT WORD
    status=$(cat "$ended")
    if [ "$status" = 124 ]; then
        echo "it did not end in $limit seconds"
    elif [ "$status" != "$1" ]; then
        echo "exit status $status, not $1: $(first "$err")"
    elif ! cmp -s "$out" "$2"; then
        echo "wrote '$(first "$out")' ($(wc -c <"$out") bytes), not '$(first "$2")' ($(wc -c <"$2") bytes); $(differs_at "$2")"
    elif [ -z "$3" ] && [ -s "$err" ]; then
        echo "said '$(first "$err")' on standard error"
    elif [ -n "$3" ] && ! grep -qF -e "$3" "$err"; then
        echo "said '$(first "$err")' on standard error, without '$3'"
    fi
}

prints() { report "$1" "$(difference 0 "$2" "${3-}")"; } # NAME OUTPUT, and a word in the messages, if there are any
refuses() { echo "refused $2" >"$want"; report "$1" "$(difference "$3" "$want" "${4-}")"; } # NAME NUMBER STATUS, and such a word
complains() { report "$1" "$(difference "${3-1}" /dev/null "$2")"; } # NAME WORD, and the exit status if it is not 1
