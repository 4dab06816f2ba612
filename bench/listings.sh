# Sourced by bench/run: the listing of a journal, by the proved program dump and by three programs in C.

# Makes the journals that are counted: of so many records with no value, of the types 0 to 6 in turn, and of two samples over and over, up to the
# limit. And two that are only compared: one with every kind and every refusal, and one that is too long.
make_journals() {
    mkdir "$room/journals"
    for which in 0 8192 16384 32768 wild; do
        $X86_RUN "$programs/release.0" journal "$which" >"$room/journals/$which"
    done
    echo | cat "$room/journals/32768" - >"$room/journals/long"
    cat "$top/samples/pass.tlv" "$top/samples/slipped.tlv" >"$room/two"
    bytes=$(wc -c <"$room/two")
    times=$((65536 / bytes))
    while [ "$times" -gt 0 ]; do
        cat "$room/two"
        times=$((times - 1))
    done >"$room/journals/samples"
}

# Builds a program in C, by hand, unrolled or printf.
build_listing() { # PROGRAM FLAG..
    program=$programs/$1
    shift
    $X86_CC -std=c11 -O3 "$@" "$top/bench/listing.c" -o "$program" || stop "bench/listing.c does not build"
}

build_listings() {
    build_listing hand
    build_listing unrolled -DUNROLLED
    build_listing printf -DBY_PRINTF
}

run() { # COMMAND..
    $X86_RUN "$@"
}

# The least time of 50 runs of a command that lists a journal.
least() { # JOURNAL COMMAND..
    $X86_RUN "$programs/release.0" listing 50 "$@" || stop "a program that is timed does not list the journal ${1##*/}"
}

# Lists by a program, which is ours or one in C: it is run or counted, over standard input, or timed.
list() { # PROGRAM run|count|least JOURNAL
    lister=$1
    shift
    case $lister in
        ours) "$@" "$dump" ;;
        *) "$@" "$programs/$lister" ;;
    esac
}

# Compares the listings of the four. Status 1 where they differ.
check_listings() {
    for journal in "$room"/journals/* "$top"/samples/*.tlv; do
        list ours run <"$journal" >"$room/ours.txt" || stop "dump does not list the journal ${journal##*/}"
        for which in hand unrolled printf; do
            list "$which" run <"$journal" >"$room/$which.txt" || stop "bench/listing.c, $which, does not list the journal ${journal##*/}"
            cmp -s "$room/ours.txt" "$room/$which.txt" && continue
            echo "$me: bench/listing.c, $which, lists the journal ${journal##*/} otherwise than dump"
            exit 1
        done
    done
}

# The instructions of the lines of a journal's records.
count_lines() { # PROGRAM JOURNAL
    all=$(list "$1" count <"$room/journals/$2")
    none=$(list "$1" count <"$room/journals/0")
    echo "$((all - none))"
}

# Times the four, in turn, over the journals of the table and the empty one.
time_listings() {
    for timed in 0 32768 samples; do
        for by in ours hand unrolled printf; do
            time=$(list "$by" least "$room/journals/$timed" </dev/null)
            echo "$timed $by $time" >>"$room/times.listings"
        done
    done
}

# A line for each journal: its records, the instructions of ours, of C by hand, with its digits unrolled and by printf, the journal, its name. The
# times are taken between the counts, as those of the calls are: eight times in all, so that each is the least of 400 runs.
measure_listings() {
    while read -r journal name; do
        list hand run <"$room/journals/$journal" >"$room/listed"
        counts=$(($(wc -l <"$room/listed") - 2))
        for which in ours hand unrolled printf; do
            counts="$counts|$(count_lines "$which" "$journal")"
            [ -n "$untimed" ] || time_listings
        done
        echo "$counts|$journal|$name"
    done <<END
32768 records with no value
samples records of the samples
END
}

table_of_listings() {
    awk -F '|' -v times="$room/times.listings" '
        # The nanoseconds of a line: the least time of the journal, less that of the empty one.
        function ns(program) {
            if (!(($6 " " program) in least)) return "-"
            return sprintf("%.2f", (least[$6 " " program] - least["0 " program]) / $1)
        }
        # A ratio, and a star where, as it is printed, it is above 1.
        function ratio(ours, other,   text) {
            text = sprintf("%.3f", ours / other)
            return text (text + 0 > 1 ? "*" : " ")
        }
        BEGIN {
            while ((getline line <times) > 0) {
                split(line, word, " ")
                at = word[1] " " word[2]
                if (!(at in least) || word[3] + 0 < least[at]) least[at] = word[3] + 0
            }
            printf "| a line of a listing    |  ours | C by hand | goal | ratio  | C unrolled | ratio  | C by printf | ratio  |"
            print " ns: ours | C by hand | C unrolled | C by printf |"
            print "|---|---|---|---|---|---|---|---|---|---|---|---|---|"
        }
        {
            printf "| %-22s | %5.1f | %9.1f |    1 | %s | %10.1f | %s |", $7, $2 / $1, $3 / $1, ratio($2, $3), $4 / $1, ratio($2, $4)
            printf " %11.1f | %s | %8s | %9s | %10s | %11s |\n", $5 / $1, ratio($2, $5), ns("ours"), ns("hand"), ns("unrolled"), ns("printf")
        }
        END { print "" }' "$room/listings"
}
