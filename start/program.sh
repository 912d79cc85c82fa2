# What ./rcv, ./rcv-show and ./rcv-guide have in common; they set `root`, `program`, `crate`, `commands` and `bounds`, and source it.
#
# The built program answers where it stands and no source that it is built of is newer. Else `rt try` runs the sources
# without a proof, and standard error says so. Words, standard input, standard output and the status are the program's
# own; standard error explains a status that comes with no line of its own. 70 says that there was no answer.
built=$root/crates/$crate/out/$crate

say() {
    echo "$program: $*" >&2
}

# Says why the built program can't answer, or nothing.
find_reason() {
    if [ ! -x "$built" ]; then
        echo "no program is built"
        return
    fi
    newer=$(
        cd "$root/crates" || exit
        names=$(awk -f ../start/closure.awk -v top="$crate" ../crates.txt) || exit
        # A folder is newer where a file of it was removed; a crate's own folder is so where rt made its out/.
        # shellcheck disable=SC2086 # a word for each crate
        find ../crates.txt $names \( -name out -o -name must-fail \) -prune -o \
            -path '*/*' -newer "$built" -print -quit
    ) || newer=../crates.txt
    case $newer in
    '') ;;
    ../*) echo "the built program is older than ${newer#../}" ;;
    *) echo "the built program is older than crates/$newer" ;;
    esac
}

# Says what a status means that comes with no line of the program's own.
explain() {
    case $1 in
    1)
        say "the words are no command; the commands are"
        echo "$commands" | sed 's/^/    /' >&2
        ;;
    4) say "standard input couldn't be read" ;;
    5) say "standard output couldn't be written, or closed before all was written" ;;
    6) say "no memory was left" ;;
    7) say "too long: $bounds" ;;
    9) say "the input ends within a line, which isn't answered" ;;
    esac
}

finish() {
    explain "$1"
    exit "$1"
}

# Ends a trial that gave no answer; what rt said of it stands in the given file.
give_up() {
    [ ! -f "$1" ] || cat -- "$1" >&2
    say "the trial run gave no answer; ./build proves and builds the program"
    exit 70
}

reason=$(find_reason)
if [ -z "$reason" ]; then
    "$built" "$@"
    finish $?
fi

if ! command -v rt > /dev/null; then
    say "$reason, and rt, which builds it, isn't on the path"
    say "rt is the command of the Rattle toolchain, and comes with the toolchain's kit; this repository doesn't contain it"
    exit 70
fi
say "$reason; an unproved trial run answers, and compiles for minutes at each call"
say "./build proves and builds the programs once"

folder=$(mktemp -d) || exit 70
running=
trap 'rm -rf -- "$folder"' EXIT
trap '[ -z "$running" ] || kill "$running"; exit 129' HUP
trap '[ -z "$running" ] || kill "$running"; exit 130' INT
trap '[ -z "$running" ] || kill "$running"; exit 143' TERM

# rt doesn't read a terminal, nor wait for a slow writer: so the input is taken whole, and first.
most=67108863
[ ! -t 0 ] || say "reads the terminal up to Ctrl-D"
head -c $((most + 1)) > "$folder/input" 2> /dev/null || finish 4
if [ "$(wc -c < "$folder/input")" -gt "$most" ]; then
    say "a trial run takes at most $most bytes"
    give_up /dev/null
fi
cd "$root/crates/$crate" || exit 70
rt try -- "$@" < "$folder/input" > "$folder/output" 2> "$folder/said" &
running=$!
wait "$running"
running=
# rt's own statuses are among the program's, so its last line tells whether the program ended.
status=$(sed -n '$s/^run=ended status=\([0-9]*\) .*/\1/p' "$folder/said")
[ -n "$status" ] || give_up "$folder/said"
cat -- "$folder/output" 2> /dev/null || status=5
finish "$status"
