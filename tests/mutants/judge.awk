# Judges the mutants of one run: awk -v crate=CRATE -v status=STATUS -f judge.awk EQUAL ROWS LOG, where LOG is what `rt check` said, which ended with STATUS, of
# mutants of CRATE. Prints each row with OUTCOME and ERROR before it.
# refused: a fact fails, or a search finds no proof. shape, fact: first the proof file no longer fits the code, and then a fact fails. shape: only the first;
# what no search proves then, of which no values are known at which it is false, may only have lost its answer.
# survived: it is proved, alone; where EQUAL names it, the heading that it stands under. no program: the compiler refuses it, and it does not count.
# open: the prover could not tell. again, alone: to be tried again, with the others or alone.
BEGIN { FS = OFS = "\t" }
FNR == 1 { part++ }
part == 1 && /^\[/ { heading = substr($0, 2, length($0) - 2) }
part == 1 { known[$0] = heading; next }
part == 2 {
    row[++n] = $0
    fn[n] = $4
    for (k = 7; k < NF; k += 2) line[$5 ":" $k ":"] = n
    sub(/^ +/, "", $8)
    key[n] = $5 FS $4 FS $6 FS $8
    next
}
/^fn / { name = $0; gsub(/^fn |: .*/, "", name); sub(/.*::/, "", name); said[name] = $0 }
/^src\/[a-z_]*\.rt:[0-9]*:[0-9]*: error/ {
    match($0, /:[0-9]*:/)
    place = "crates/" crate "/" substr($0, 1, RSTART + RLENGTH - 1)
    if (place in line) { named[line[place]]; again = 1 }
}
# what fails where the proof is written, and what fails of the code where none is
/: error/ {
    place = match($0, /[a-z_0-9]*\/[A-Z][A-Za-z]*\.antt:/) ? substr($0, RSTART, RLENGTH) : ""
    sub(/\/.*/, "", place)
    sub(/^.*:[0-9]+:[0-9]+: error[^:]*: /, "")
    note(place)
}
/^note: src\/.*: it is not proved that / {
    split($0, at, ":")
    place = owner("crates/" crate "/" substr(at[2], 2), at[3])
    sub(/^note: [^ ]*: /, "")
    note(place)
}
/^logic=/ { all = status == 0 ? "proved" : "not proved" }
/^rattle: no verdict/ { all = "open" }
# The function that a line of a file belongs to.
function owner(file, number,    k, s, name) {
    while (k < number && (getline s <file) > 0) {
        k++
        if (s ~ /^ *(pub(\((super|crate)\))? )?fn /) { name = s; sub(/^ *(pub(\((super|crate)\))? )?fn +/, "", name); sub(/[<(].*/, "", name) }
    }
    close(file)
    return name
}
function note(place) { noted(place); noted("any") }
function noted(place) {
    if (!(place in first)) first[place] = $0
    if (!(place in fact) && !shape($0) && !/was not admitted|was rejected/ && (!/^it is not proved/ || /allow values/)) fact[place] = $0
}
function shape(error) {
    return error ~ /has no `[^`]*` that can be named|`rw`: no occurrence|`simp`: no equation/ ||
        error ~ /has no field|no field `|(more|fewer|too many|too few) arguments|is not a (function|record)/ ||
        error ~ /expects? [0-9]+ arguments|expected type `tie\.|is not expected here|this pattern needs a function|: record `[^`]*`$|projection/
}
function outcome(i, place, says) {
    error = first[place]
    if (all == "") return n == 1 || i in named ? "no program" : again ? "again" : "alone"
    if (says ~ /proved$/ && says !~ /not proved$/) return n > 1 ? "alone" : all != "proved" ? "open" : key[i] in known ? known[key[i]] : "survived"
    if (says ~ /no proof: .*[^:]calls? / && n > 1) return "alone" # since what it calls is not proved
    if (says !~ /not proved|no proof/) return n > 1 ? "alone" : "open"
    if (shape(error) && place in fact) { error = fact[place]; return "shape, fact" }
    return shape(error) ? "shape" : "refused"
}
END {
    if (status > 1) all = "open"
    for (i = 1; i <= n; i++) {
        o = fn[i] ~ /^const / ? outcome(i, "any", all) : outcome(i, fn[i], said[fn[i]])
        print o, substr(error, 1, 300), row[i]
    }
}
