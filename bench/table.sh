# The table of bench/families, bench/hostile and bench/minimising, which read this file. They say where they are (here), print what the program is to
# do with texts of a kind (words: the command, with its options), and make a text of a kind and of this many bytes (text). GENREQ is another program
# than the built one.
program=${GENREQ:-$here/../crates/genreq/out/genreq}
out=$here/out

# A run is stopped after this many seconds of processor time, and gets no more than this many KiB. After that the larger texts of its kind are left out.
seconds=20
memory=4194304

[ -x "$program" ] || { echo "$0: $program is not there: ./prove proves and builds it" >&2; exit 1; }
/usr/bin/time -f '' true 2>/dev/null || { echo "$0: GNU time is not there" >&2; exit 1; }
mkdir -p "$out" || exit 1

# How many times as long, where that can be told.
growth() {
    awk -v now="$1" -v before="$2" 'BEGIN { if (before >= 0.05) printf "%.1f\n", now / before; else print "-" }'
}

# A line of the table: a kind and its KiB.
line() {
    text "$1" $(($2 * 1024)) >"$out/made.txt"
    /usr/bin/time -f '%U %S %M' -o "$out/figures" sh -c 'ulimit -t "$1"; ulimit -v "$2"; shift 2; exec "$@"' sh $seconds $memory "$program" $(words "$1") \
        <"$out/made.txt" >"$out/printed" 2>"$out/faults"
    status=$?
    [ $status -lt 128 ] || status=stopped
    now=$(tail -n 1 "$out/figures" | awk '{ printf "%.2f", $1 + $2 }')
    peak=$(tail -n 1 "$out/figures" | awk '{ print $3 }')
    printf '%-17s %5d %9d %8s %9s %9d %7s\n' "$1" "$2" "$(wc -c <"$out/made.txt")" $status "$now" "$peak" "$(growth "$now" "$before")"
    before=$now
}

heading() {
    printf '%-17s %5s %9s %8s %9s %9s %7s\n' text KiB bytes status seconds KiB times
}

# The lines of these sizes in KiB, and after -- of these kinds.
lines() {
    sizes=
    while [ "$1" != -- ]; do
        sizes="$sizes $1"
        shift
    done
    shift
    for kind; do
        before=0
        status=0
        for size in $sizes; do
            [ "$status" = stopped ] || line "$kind" "$size"
        done
    done
}

# The table of these sizes in KiB, and after -- of these kinds.
table() {
    heading
    lines "$@"
}
