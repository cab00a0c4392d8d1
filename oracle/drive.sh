# Read in by oracle/compare, oracle/linked and oracle/long, which go to the top of the repository first and have set `out`, the folder of the
# drivers. How a command of the driver is run, so that a failure says what repeats it; and what must be met.

# The seed of all that must meet something, which a fresh one might miss. Another one may miss something, too: then take a third.
fixed=20261118
all="1-1-1-1-1 2-2-3-2-1 3-4-6-5-2 4-6-12-8-3 8-16-128-128-32 32-128-1024-1024-128"

# drive SIZES COMMAND..: a command of the driver of these sizes. Where it fails, prints the line that repeats it; the seed stands in it.
drive() {
    pools=$1
    shift
    "$out/driver-$pools" "$@" || {
        echo "FAILED with status $?; repeat it, at the top of the repository:"
        echo "    oracle/build target/drivers $(echo "$pools" | tr '-' ' ') && target/drivers/driver-$pools $*"
        return 1
    }
}

# kept FILE SIZES COMMAND..: the same, with what it prints in a file. Where it fails, that is shown.
kept() {
    into=$1
    shift
    drive "$@" >"$into" || { cat "$into"; exit 1; }
}

# missed WHAT: it was to be met.
missed() {
    echo "NOT MET with the fixed seed $fixed: $1"
    exit 1
}

# counted WORD FILE..: the lines of these files that begin with the word, each with a number, added up by what they name; none may be 0.
counted() {
    word=$1
    shift
    awk -v word="$word" '$1 == word { n = $2; $1 = $2 = ""; total[$0] += n }
         END { for (name in total) printf "%10d %s\n", total[name], name }' "$@" | sort -k2 >"$out/$word"
    cat "$out/$word"
    [ -s "$out/$word" ] || missed "$word"
    ! grep -q '^ *0 ' "$out/$word" || missed "$(sed -n 's/^ *0 *//p' "$out/$word")"
}
