# Chooses mutants and puts them into runs: awk -v seed=N -v count=K -v most=M -f plan.awk CALLS LIST. Prints lines of LIST, each with the number of its run
# before it. The kinds take turns; within a kind the order is that of a generator which the seed starts. A run holds at most M mutants, of functions none of
# which calls another, by whatever way: a function is proved from the contracts of those that it calls, so each is judged as if alone. A constant is alone.
BEGIN { FS = OFS = "\t" }
FILENAME == ARGV[1] { reach[$1, $2]; fns[$1]; fns[$2]; next }
{ if (!($2 in size)) kinds[++nkinds] = $2; list[$2, ++size[$2]] = $0; total++ }
function random(n) { state = state * 16807 % 2147483647; return int(state / 2147483647 * n) } # Park and Miller's, exact in any awk
function fits(f, r,    m, g) { # may a mutant of f stand in the run r?
    for (m = 1; m <= members[r]; m++) {
        g = member[r, m]
        if (f == g || (f, g) in reach || (g, f) in reach || f ~ /^const / || g ~ /^const /) return 0
    }
    return members[r] < most
}
END {
    state = seed % 2147483646 + 1
    for (k = 0; k < 10; k++) random(1)
    for (k = 1; k <= nkinds; k++)
        for (i = size[kinds[k]]; i > 1; i--) {
            j = random(i) + 1
            t = list[kinds[k], i]; list[kinds[k], i] = list[kinds[k], j]; list[kinds[k], j] = t
        }
    for (b in fns) for (a in fns) if ((a, b) in reach) for (c in fns) if ((b, c) in reach) reach[a, c]
    if (count == 0 || count > total) count = total
    for (turn = 1; n < count; turn++)
        for (k = 1; k <= nkinds && n < count; k++) {
            if (turn > size[kinds[k]]) continue
            n++
            split(list[kinds[k], turn], part)
            for (r = 1; r <= runs && !fits(part[3], r); r++);
            if (r > runs) runs = r
            member[r, ++members[r]] = part[3]
            row[r, members[r]] = list[kinds[k], turn]
        }
    for (r = 1; r <= runs; r++) for (m = 1; m <= members[r]; m++) print r, row[r, m]
}
