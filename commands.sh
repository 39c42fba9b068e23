# What the commands beside this file share: messages, the version, the input, and the proved program that a command runs.
# A command sets `name` to its own name and `root` to the folder that both stand in, and sources it.
# shellcheck shell=sh disable=SC2034,SC2154 # name and root are set by commands, and some names are for them alone
set -u
LC_ALL=C
export LC_ALL
newline='
'

say() { printf '%s: %s\n' "$name" "$1" >&2; }

fail() {
    say "$1"
    exit 1
}

# Prints the name and the version, which is the line of the file VERSION beside the command.
version() {
    release=$(cat "$root/VERSION" 2>/dev/null)
    [ -n "$release" ] || fail "the version is unknown: $root/VERSION cannot be read, or is empty"
    printf '%s %s\n' "$name" "$release" 2>/dev/null || fail 'standard output cannot be written'
}

# Makes a file standard input, or leaves standard input as it is if the file is -.
open_input() { # FILE
    if [ "$1" = - ]; then
        { true 3<&0; } 2>/dev/null || fail 'standard input is closed'
    else
        [ -e "$1" ] || fail "there is no file '$1'"
        [ ! -d "$1" ] || fail "'$1' is a folder, not a file"
        # a plain exec that fails would end the shell, in status 2
        { command exec <"$1"; } 2>/dev/null || fail "the file '$1' cannot be read"
    fi
}

# Sets `bytes` to the bytes of standard input, as decimal numbers. They are read once; a byte more than the largest file
# has, 25,094, is enough to judge it, however many follow.
read_bytes() { # what the input is called
    bytes=$(od -A n -v -t u1 -N 25095) || fail "od could not read $1"
}

# Sets `escapes` to what printf %b writes these bytes from.
escape_bytes() { # BYTES, as decimal numbers, and what the input is called
    escapes=$(printf '%s\n' "$1" | awk '{ for (i = 1; i <= NF; i++) printf "\\0%03o", $i }') || fail "awk could not read $2"
}

# A checksum over the names and contents of all that programs are built from. What rt makes, in the folder out of a crate, is none of it.
sources() {
    cd "$root" && find -L crates.txt crates -path 'crates/*/out' ! -path 'crates/*/*/out' -prune -o \
        -type f \( -name crates.txt -o -name '*.rt' -o -name '*.antt' \) -print0 |
        sort -z | xargs -0 sha256sum | sha256sum
}

# True if the program is there, and it and its sources are what they were when it was built.
is_built() {
    built_from=$(sources) || fail "the sources in $root cannot be read"
    [ -x "$program" ] && [ "$(cat "$record" 2>/dev/null)" = "$built_from $(sha256sum <"$program")" ]
}

# Proves and builds the program, or waits while another run builds this one or another. rt runs what it has built; here
# that is on empty input, and as the output of rt it is shown only if something fails.
# The sources' checksum is from before, so that one which changes during the build is seen next time.
build() (
    command -v rt >/dev/null ||
        fail "the program is missing or was built from other sources, and Rattle's command 'rt', which builds it, is not on the PATH"
    mkdir -p "$root/target" || fail "cannot make the folder $root/target"
    { command exec 9>"$root/target/build.lock"; } 2>/dev/null || fail "cannot write in $root/target"
    say 'building the program, which takes a minute or two'
    flock 9
    ! is_built || exit 0
    # a failed proof leaves no program behind
    rm -f "$program" "$record"
    if ! rt_output=$(cd "$root/crates/$crate" && rt run 2>&1 </dev/null); then
        rm -f "$program"
        printf '%s\n' "$rt_output" >&2
        fail 'the program was not built; rt says why above'
    fi
    [ -x "$program" ] || fail "rt built no program $program"
    printf '%s %s\n' "$built_from" "$(sha256sum <"$program")" >"$record" || fail "cannot write $record"
)

# Sets `program` to the program of a crate, which is built first if it is missing or was built from other sources.
make_ready() { # CRATE
    crate=$1
    program=$root/crates/$crate/out/$crate
    record=$root/target/$crate.built
    is_built || build || exit 1
}

cause() { # NUMBER
    case $1 in
    1) echo 'the file ends inside a count or a section' ;;
    2) echo 'the bus count is 0 or above 512' ;;
    3) echo 'a need is 0 or above 24' ;;
    4) echo 'the line count is above 5,888' ;;
    5) echo 'bytes follow the last weight' ;;
    6) echo 'a record names a bus at or above the bus count, or one bus twice' ;;
    7) echo 'a bus has more than 23 different neighbours' ;;
    15) echo 'the first bus of a record is above its second, or a record is below the one before it' ;;
    17) echo "a need is above its bus's degree, and is not 1 at a bus without lines" ;;
    18) echo 'the network has no such line; lines are numbered from 0' ;;
    19) echo 'the weight count, behind the records, is not the bus count' ;;
    20) echo 'a weight is 0 or above 1,000' ;;
    *) echo 'docs/FORMAT.md says why' ;;
    esac
}

# Prints what the program printed, and ends. The program has no exit status of its own, so what it printed decides: 2 if it
# refused the file, 0 if the command's is_whole says that all is there.
print_answer() { # PRINTED WHAT
    case $1 in
    "refused "[1-9]*"$newline") status=2 ;;
    '') exit 1 ;; # the program has said why
    *)
        is_whole "$1" || fail "the program printed no whole $2"
        status=0
        ;;
    esac
    printf %s "$1" 2>/dev/null || fail 'standard output cannot be written'
    [ $status = 0 ] || {
        number=${1#refused }
        number=${number%"$newline"}
        say "refused $number: $(cause "$number")"
    }
    exit $status
}
