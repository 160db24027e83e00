# What the two lists of mutants share, code.awk and definitions.awk. A mutant is a line with tabs: ID, KIND, NAME of the function or definition, FILE,
# the line before, and pairs of a line's number and its new text. `text` has a file's lines; `tok`, `row` and `column` have n tokens of it.
BEGIN { OFS = "\t" }
{ text[FNR] = $0 }

# Enters tokens, each with those that may take its place: 'TOKEN NEW NEW,TOKEN NEW'.
function others(kind, table,    m, list, k, t) {
    m = split(table, list, ",")
    for (k = 1; k <= m; k++) { t = list[k]; sub(/ .*/, "", t); kind_of[t] = kind; news[t] = substr(list[k], length(t) + 2) }
}
# Reads the tokens of a line from a column on: `word` says what one is, beside single characters.
function tokens(s, k,    t) {
    for (; k <= length(s); k += length(t)) {
        t = substr(s, k)
        t = substr(t, 1, match(t, /^ +/) || match(t, word) ? RLENGTH : 1)
        if (t !~ /^ /) { tok[++n] = t; row[n] = FNR; column[n] = k }
    }
}
# The token that closes the bracket at i, or i itself; the last one if none does.
function closing(i,    k, depth) {
    for (k = i; k <= n; k++) if ((depth += (tok[k] ~ /^[({[]$/) - (tok[k] ~ /^[)}\]]$/)) == 0) return k
    return n
}
function span(i, j) { return row[i] == row[j] ? substr(text[row[i]], column[i], column[j] + length(tok[j]) - column[i]) : "" }

# Puts a new text for the tokens i to j, on however many lines. Of two changes on one line the right one has to come first.
function put(i, j, new,    k, end) {
    for (k = j; k >= i; k--) {
        if (k == j || row[k] != row[k + 1]) end = column[k] + length(tok[k])
        if (k == i || row[k] != row[k - 1]) splice(row[k], column[k], end, k == i ? new : "")
    }
}
function splice(line, from, to, new) {
    if (!(line in now)) { now[line] = text[line]; changed[++changes] = line }
    now[line] = substr(now[line], 1, from - 1) new substr(now[line], to)
}
# Prints what was put as a mutant, unless another kind has made it.
function mutant(kind,    k, old, edits) {
    old = text[changed[changes]]
    sub(/^ +/, "", old)
    for (; changes; changes--) { k = changed[changes]; edits = edits OFS k OFS now[k]; delete now[k] }
    if (!((FILENAME, edits) in made)) print ++id, kind, name, FILENAME, old edits
    made[FILENAME, edits]
}
function replace(kind, i, j, new) { put(i, j, new); mutant(kind) }
function exchange(kind, a, b, c, d) { # the tokens a to b with c to d behind them
    if (span(a, b) == span(c, d) || span(a, b) == "" || span(c, d) == "") return
    put(c, d, span(a, b))
    replace(kind, a, b, span(c, d))
}
function in_scope(t) { return scope == "" || index(scope, " " t " ") || index(scope, " ◌" t "◌ ") } # for code anything
function each(i,    m, new, k) { # a token for those that may take its place
    m = split(news[tok[i]], new, " ")
    for (k = 1; k <= m; k++) if (in_scope(new[k])) replace(kind_of[tok[i]], i, i, new[k])
}
function number(kind, i,    suffix) { # a number for its neighbours and 0
    suffix = tok[i]
    sub(/^[0-9]+/, "", suffix)
    replace(kind, i, i, sprintf("%.0f", tok[i] + 1) suffix)
    if (tok[i] + 0 > 0) replace(kind, i, i, sprintf("%.0f", tok[i] - 1) suffix)
    if (tok[i] + 0 > 1) replace(kind, i, i, "0" suffix)
}
