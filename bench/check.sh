#!/bin/sh
# How long the proof of each crate takes, alone and from nothing, and on what (docs/CHECK-TIMES.md).
#
#   bench/check.sh            every crate of crates.txt, one after the other
#   bench/check.sh NAME..     the crates named: their kinds of module, and the functions that take longest
#   bench/check.sh --help     this
#
# The prover saves each module as it finishes it. The time between two of these files is taken as the later one's. It takes over modules that it saved
# in another checkout of this repository on the machine: run this where there is no other, and never was.
# POSIX sh with find's -printf; needs rt on the path, and awk and sort.
set -u
cd "$(dirname "$0")/.." || exit 2
. tests/scripts/shared.sh
script bench/check.sh "$@"
crates=$(sed -n 's/^\([a-z_0-9]*\)\( staticlib\)\{0,1\}:.*/\1/p' crates.txt)
for name; do printf '%s\n' "$crates" | grep -qx "$name" || unknown "$name"; done
command -v rt >/dev/null || die "no rt on the path: the Rattle kit's command, which proves and builds"
mkdir -p target || die "cannot make target"

# Proves one crate from nothing; what it uses is proved before. Gives the lines "SECONDS MODULE", in the order of the run.
modules() { # NAME
    rm -rf "crates/$1/out/incremental"
    touch "target/check.$1.begin" && sleep 1
    (cd "crates/$1" && rt check --jobs 1) >"target/check.$1.log" 2>&1 || die "rt check in crates/$1 failed: target/check.$1.log says how"
    kept=$(find "crates/$1/out/incremental" -name '*.oantt' ! -newer "target/check.$1.begin" -print | wc -l)
    [ "$kept" -eq 0 ] || say "$1: rt took $kept modules from another checkout on this machine; they are not counted, so the seconds say little"
    find "crates/$1/out/incremental" -name '*.oantt' -newer "target/check.$1.begin" -printf '%T@ %f\n' | sort -n |
        awk '{ if (NR > 1) printf "%.3f %s\n", $1 - last, $2; last = $1 }' | sed 's/\.oantt$//; s/\.decls$//'
}

# The kinds of module: what people wrote (specs, with the laws in proofs, and the answers and invariants of functions), and what the prover makes of
# each function.
kinds() {
    awk '
        { n = split($2, part, /[.]/); kind = part[n]; all += $1; count++
          if ($2 ~ /^Rattle-[a-z0-9_]+[.](specs|proofs)[.][A-Z][A-Za-z]*$/) sum["specs"] += $1
          else if (kind == "Answers" || kind == "Invariants") sum["proofs"] += $1
          else if (kind == "Lts") sum["walk"] += $1
          else sum["other"] += $1 }
        END { printf "%7.1f %7.1f %7.1f %7.1f %7.1f %8d\n", all, sum["walk"], sum["proofs"], sum["specs"], sum["other"], count }'
}

# The functions that take longest: walk and proof together.
longest() {
    awk '{ n = split($2, part, /[.]/)
           if ((part[n] == "Lts" || part[n] == "Answers" || part[n] == "Invariants") && n > 2) { f = part[2]; for (i = 3; i < n; i++) f = f "::" part[i]; sum[f] += $1 } }
        END { for (f in sum) printf "    %6.1f  %s\n", sum[f], f }' | sort -rn | head -12
}

printf '%-12s %7s %7s %7s %7s %7s %8s\n' seconds all walk proofs specs other modules
for name in ${*:-$crates}; do
    (cd "crates/$name" && rt check) >"target/check.$name.before.log" 2>&1 || die "rt check in crates/$name failed: target/check.$name.before.log says how"
    lines=$(modules "$name") || exit 2
    printf '%-12s %s\n' "$name" "$(printf '%s\n' "$lines" | kinds)"
    [ $# -eq 0 ] || printf '%s\n' "$lines" | longest
done
