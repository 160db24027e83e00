#!/bin/sh
# Times the library's calls beside the original's (docs/SPEED.md), and the audit beside a plain pass over the same words (docs/AUDIT-TIMES.md).
#
#   bench/speed.sh [PROCESSES]   the tables of times: medians of so many processes, 7 if no number is given; some six minutes
#   bench/speed.sh --quick       the same of one short process: for a first look
#   bench/speed.sh --counts      the tables of instructions, counted by valgrind: some five minutes
#   bench/speed.sh --audit       the audit alone; PROCESSES, --quick and --counts may stand beside it
#   bench/speed.sh --help        this
#
# It proves and builds the archive, builds the benchmark with the cargo at hand, and runs it, on x86-64 only. As root it installs what is
# missing of Debian's packages. POSIX sh; needs rt on the path.
set -u
cd "$(dirname "$0")/.." || exit 2
. tests/scripts/shared.sh
script bench/speed.sh "$@"
have() { command -v "$1" >/dev/null 2>&1; }

mode=times only='' processes=7 milliseconds=100
for word; do
    case $word in
    --quick) processes=1 milliseconds=20 ;;
    --counts) mode=counts ;;
    --audit) only='audit ' ;;
    '' | 0* | *[!0-9]*) unknown "$word" ;;
    *) processes=$word ;;
    esac
done

root=$PWD
out=$root/target/speed
registry=/usr/share/cargo/registry
count=$out/release/count
mkdir -p "$out" || die "cannot make target/speed"

# ---- what is needed
[ "$(uname -m)" = x86_64 ] || die "the archive is x86-64 code, and times in an emulator mean nothing"
have rt || die "no rt on the path"
missing=''
[ -n "$(find "$registry" -maxdepth 1 -name 'criterion-0.3.*' 2>/dev/null)" ] || missing="librust-criterion-dev"
have cargo && have rustc || missing="$missing cargo rustc"
have cc || missing="$missing gcc libc6-dev"
[ "$mode" = times ] || have valgrind || missing="$missing valgrind"
if [ -n "$missing" ]; then
    { [ "$(id -u)" = 0 ] && have apt-get; } || die "missing, by the names of Debian's packages: $missing"
    echo "installing $missing"
    export DEBIAN_FRONTEND=noninteractive
    # shellcheck disable=SC2086
    set -- apt-get -qq -y -o DPkg::Lock::Timeout=900 install --no-install-recommends $missing
    { "$@" || { apt-get -qq update && "$@"; }; } >"$out/install.log" 2>&1 || { cat "$out/install.log"; die "cannot install $missing"; }
fi

# The original is compared as it stands.
if have git && git rev-parse --git-dir >/dev/null 2>&1; then
    git diff --quiet HEAD -- docs/src || die "docs/src is not as committed"
fi

# ---- the archive, where it is older than a source, and the benchmark. No lock file stays behind: which versions there are is Debian's to say.
archive=crates/maaliskur/out/libmaaliskur.a
if [ ! -f "$archive" ] || [ -n "$(find crates crates.txt -name out -prune -o -type f -newer "$archive" -print)" ]; then
    say "proving and building the archive, some minutes"
    (cd crates/maaliskur && rt lib) >"$out/archive.log" 2>&1 || { cat "$out/archive.log"; die "rt lib in crates/maaliskur failed"; }
fi

# Builds with cargo.
built() { # WORDS..
    say "building the benchmark"
    (cd bench/speed && cargo "$@" --offline --message-format short) >"$out/build.log" 2>&1 || { cat "$out/build.log" >&2; die "cargo $1 failed"; }
    rm -f bench/speed/Cargo.lock
}

# The names of the cases and of the full pools, which begin with `audit`.
names() { "$count" | grep "^$only"; }

# A line for a full pool, and at the end how far the ratio goes from flat: the functions that both tables of the audit are made with.
audits='
    function pool(name, audit, pass, places, per, ratio,    part, measure) {
        split(name, part, " "); kind = part[2]; keep(kind, ratio); measure = "%10." places "f"
        return sprintf("%7d  %-5s  " measure "  %8.3f  " measure "  %6.2f", part[3], kind, audit, per / part[3], pass, ratio) }
    function keep(of, ratio) {
        if (!(of in first)) { first[of] = low[of] = high[of] = ratio; order[++kinds] = of }
        if (ratio < low[of]) low[of] = ratio
        if (ratio > high[of]) high[of] = ratio
        last[of] = ratio }
    function flat(    i, of) {
        for (i = 1; i <= kinds; i++) { of = order[i]
            printf "%s: the ratio at the largest pool is %.3f of that at the smallest; highest over lowest %.3f\n", of, last[of] / first[of], high[of] / low[of] } }'

# ---- times

# One process: criterion keeps each sample in a file raw.csv.
process() { # NUMBER
    SPEED_MILLISECONDS=$milliseconds CRITERION_HOME=$out/runs/$1 "$bench" --bench --noplot ${only:+"$only"} >"$out/run.log" 2>&1 ||
        { cat "$out/run.log"; die "the benchmark failed"; }
}

# All samples of all processes: PROCESS,CASE,SIDE,NANOSECONDS OF ONE CALL.
samples() {
    find "$out/runs" -path '*/new/raw.csv' | while read -r file; do
        number=${file#"$out/runs/"}
        awk -F, -v number="${number%%/*}" 'NR > 1 { printf "%s,%s,%s,%.4f\n", number, $1, $2, $6 / $8 / $4 }' "$file"
    done
}

# Of each process, case and side: PROCESS,CASE,SIDE,MEDIAN,LEAST.
medians() {
    sort -t, -k1,3 -k4,4n | awk -F, '
        function close_() { if (n) printf "%s,%.4f,%.4f\n", key, n % 2 ? v[(n + 1) / 2] : (v[n / 2] + v[n / 2 + 1]) / 2, v[1]; n = 0 }
        { if ($1 "," $2 "," $3 != key) { close_(); key = $1 "," $2 "," $3 } v[++n] = $4 }
        END { close_() }'
}

# The tables. A time is the median of the processes' medians, a ratio the median of their ratios: the two sides of a ratio were then timed
# within a second or two of each other.
tables() {
    awk -F, -v names="$(names)" -v processes="$processes" "$audits"'
        function middle(v, n,    i, j, t) {
            for (i = 2; i <= n; i++) { t = v[i]; for (j = i - 1; j > 0 && v[j] > t; j--) v[j + 1] = v[j]; v[j + 1] = t }
            return n % 2 ? v[(n + 1) / 2] : (v[n / 2] + v[n / 2 + 1]) / 2 }
        function time(c, s,    p, v) { for (p = 1; p <= processes; p++) v[p] = each[p, c, s]; return middle(v, processes) }
        function ratio(c, s, o,    p, v) { for (p = 1; p <= processes; p++) v[p] = each[p, c, s] / each[p, c, o]; return middle(v, processes) }
        function calls(    i, c) {
            print "nanoseconds of processor time for a call (medians), the ratios of these (medians), and the least times with their ratio"
            printf "%-18s %8s %8s %8s %8s %8s %8s %8s %8s %8s %8s\n", "", "C", "crate", "original", "shifting", "C/orig", "crate/or", "C/shift", "least C", "least or", "C/orig"
            for (i = 1; i <= n; i++) if (name[i] !~ /^audit /) { c = name[i]
                printf "%-18s %8.1f %8.1f %8.1f %8.1f %8.2f %8.2f %8.2f %8.1f %8.1f %8.2f\n", c, time(c, "c"), time(c, "crate"), time(c, "original"), time(c, "shifting"),
                    ratio(c, "c", "original"), ratio(c, "crate", "original"), ratio(c, "c", "shifting"), least[c, "c"], least[c, "original"], least[c, "c"] / least[c, "original"] } }
        function pushes(    i, m, s, forms) {
            print "\npush alone: times (medians), their ratios to the original (medians), and the least times"
            printf "%-18s %10s %10s %10s %10s %10s %10s\n", "", "push 1000", "ratio", "push 8", "ratio", "least 1000", "least 8"
            m = split("c,crate,value split,value cut,value judged,value bare,pointer judged,pointer bare,original called,original", forms, ",")
            for (i = 1; i <= m; i++) { s = forms[i]
                printf "%-18s %10.1f %10.2f %10.1f %10.2f %10.1f %10.1f\n", s, time("push 1000", s), ratio("push 1000", s, "original"), time("push 8", s), ratio("push 8", s, "original"),
                    least["push 1000", s], least["push 8", s] }
            print "" }
        function pools(    i, c, o) {
            print "microseconds of processor time for an audit and for a plain pass over the same words (medians), nanoseconds for a word, the ratios (medians), and the least times"
            printf "%7s  %-5s  %10s  %8s  %10s  %6s  %10s  %10s  %6s\n", "words", "kind", "audit us", "ns/word", "pass us", "ratio", "least us", "least pass", "ratio"
            for (i = 1; i <= n; i++) if (name[i] ~ /^audit /) { c = name[i]
                o = least[c, "c"] / least[c, "pass"]
                printf "%s", pool(c, time(c, "c") / 1000, time(c, "pass") / 1000, 2, time(c, "c"), ratio(c, "c", "pass"))
                keep(kind ", least times", o)
                printf "  %10.2f  %10.2f  %6.2f\n", least[c, "c"] / 1000, least[c, "pass"] / 1000, o }
            flat() }
        { each[$1, $2, $3] = $4; if (!(($2, $3) in least) || $5 < least[$2, $3]) least[$2, $3] = $5 }
        END { n = split(names, name, "\n"); if (name[1] !~ /^audit /) { calls(); pushes() } pools() }'
}

time_tables() {
    built bench --no-run
    bench=$(sed -n 's/.*Executable .*(\(.*\)).*/\1/p' "$out/build.log")
    bench=$root/bench/speed/$bench
    [ -x "$bench" ] || die "cargo names no benchmark"
    rm -rf "$out/runs"
    number=1
    while [ "$number" -le "$processes" ]; do
        say "process $number of $processes"
        mkdir -p "$out/runs/$number" && process "$number"
        number=$((number + 1))
    done
    echo "medians of $processes processes"
    samples | medians | tables
}

# ---- counts

# The instructions of one call of a case, or of one audit, on a side: those of a round, counted by valgrind, shared among its calls.
counted() { # NAME SIDE
    calls=$(valgrind --tool=callgrind --collect-atstart=no --toggle-collect='*counted_*' --callgrind-out-file=/dev/null \
        "$count" "$@" 2>"$out/count.log") || { cat "$out/count.log" >&2; die "counting $* failed"; }
    awk -v calls="$calls" '/Collected : / { n = $NF } END { if (!n) exit 1; printf "%.1f", n / calls }' "$out/count.log" || die "valgrind counted nothing of $*"
}

# The lines NAME,INSTRUCTIONS.. of the cases and the pools, a number for each side.
count_lines() {
    names | while read -r name; do
        say "counting $name"
        sides='c crate original shifting'
        case $name in audit*) sides='c pass' ;; esac
        line=$name
        for side in $sides; do line=$line,$(counted "$name" "$side") || exit 2; done
        echo "$line"
    done
}

count_tables() {
    built build --release
    lines=$(count_lines) || exit 2
    printf '%s\n' "$lines" | awk -F, "$audits"'
        NF == 5 && !calls++ {
            print "instructions of a call"
            printf "%-18s %8s %8s %8s %8s   %6s %6s\n", "", "C", "crate", "original", "shifting", "C/orig", "C/sh" }
        NF == 5 { printf "%-18s %8.1f %8.1f %8.1f %8.1f   %6.2f %6.2f\n", $1, $2, $3, $4, $5, $2 / $4, $2 / $5 }
        NF == 3 && !pools++ {
            print (calls ? "\n" : "") "instructions of an audit and of a plain pass over the same words, and of an audit for a word"
            printf "%7s  %-5s  %10s  %8s  %10s  %6s\n", "words", "kind", "audit", "per word", "pass", "ratio" }
        NF == 3 { print pool($1, $2, $3, 0, $2, $2 / $3) }
        END { flat() }'
}

case $mode in times) time_tables ;; *) count_tables ;; esac
