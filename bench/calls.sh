# Sourced by bench/run: the calls, ours and the Rust's, in both builds.

# Builds the program in one of the two ways, with its code moved by so many bytes. Cargo reads the settings of the folder that it is run in: those of
# target/oracle say where the crates are that spacepackets needs.
build_program() { # PROFILE PLACE
    export PLACE="$2"
    (cd "$top/target/oracle" && x86_built build --quiet --profile "$1" --manifest-path "$top/bench/Cargo.toml") || exit
    cp "$top/target/cargo/x86_64-unknown-linux-gnu/$1/bench" "$programs/$1.$2"
}

# Builds the program in both ways, and compares the two sides' answers. To be timed it is built at each of the four places in 64 bytes where a
# function can begin.
build_calls() {
    places=0
    [ -n "$untimed" ] || places='0 16 32 48'
    for profile in release lto; do
        for place in $places; do
            build_program "$profile" "$place"
        done
        $X86_RUN "$programs/$profile.0" check || exit 1
    done
}

# The instructions of so many calls of a case.
count_calls() { # PROFILE CASE SIDE ROUNDS
    once=$(count "$programs/$1.0" run "$2" "$3" "$4" </dev/null)
    twice=$(count "$programs/$1.0" run "$2" "$3" "$((2 * $4))" </dev/null)
    echo "$((twice - once))"
}

# Times every case in both builds, at each place.
time_calls() {
    for place in $places; do
        for profile in release lto; do
            $X86_RUN "$programs/$profile.$place" times </dev/null >>"$room/times.$profile"
        done
    done
}

# A line for each case: its number, its calls or records, its goal, the instructions of ours, the Rust and the Rust with LTO, its name, its goal by time.
# The times are taken between the counts: so they lie far apart, and a while in which the machine is busy does not hit all of them.
measure_calls() {
    $X86_RUN "$programs/release.0" calls >"$room/cases"
    while read -r number rounds per goal time_goal name; do
        ours=$(count_calls release "$number" ours "$rounds")
        rust=$(count_calls release "$number" rust "$rounds")
        lto=$(count_calls lto "$number" rust "$rounds")
        echo "$number|$((rounds * per))|$goal|$ours|$rust|$lto|$name|$time_goal"
        [ -n "$untimed" ] || time_calls
    done <"$room/cases"
}

table_of_calls() {
    awk -F '|' -v times="$room/times" '
        # Keeps of all times of a case and a side the least.
        function read_times(build,   line, word, side, at) {
            while ((getline line <(times "." build)) > 0) {
                split(line, word, " ")
                for (side = 1; side <= 2; side++) {
                    at = build " " word[1] " " side
                    if (!(at in least) || word[side + 1] + 0 < least[at]) least[at] = word[side + 1] + 0
                }
            }
        }
        # A ratio, and a star where, as it is printed, it is above its goal: beside the Rust as it stands those of the case, else 1.
        function ratio(kind, ours, other, goal,   text) {
            if (ours == "") return "- "
            text = sprintf("%.3f", ours / other)
            if (text + 0 <= goal) return text " "
            above[kind]++
            return text "*"
        }
        function ns(t) { return t == "" ? "-" : sprintf("%.2f", t) }
        BEGIN {
            read_times("release")
            read_times("lto")
            print "| instructions                      |  ours | the Rust | goal | ratio  | by time |   LTO | ratio  | by time | ns: ours | the Rust |  ours |   LTO |"
            print "|---|---|---|---|---|---|---|---|---|---|---|---|---|"
        }
        {
            a = least["release " $1 " 1"]; b = least["release " $1 " 2"]; c = least["lto " $1 " 1"]; d = least["lto " $1 " 2"]
            printf "| %-33s | %5.1f | %8.1f | %.2f | %6s | %7s |", $7, $4 / $2, $5 / $2, $3, ratio("calls", $4, $5, $3), ratio("time", a, b, $8)
            printf " %5.1f | %6s | %7s |", $6 / $2, ratio("LTO", $4, $6, 1), ratio("LTO, time", c, d, 1)
            printf " %8s | %8s | %5s | %5s |\n", ns(a), ns(b), ns(c), ns(d)
        }
        END {
            printf "\nAbove the goal, of %d: by instructions %d, with LTO %d", NR, above["calls"], above["LTO"]
            if (a != "") printf "; by time %d, with LTO %d", above["time"], above["LTO, time"]
            print ".\n"
        }' "$room/calls"
}
