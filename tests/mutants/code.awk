# Lists the mutants of code: awk -v calls=FILE -f list.awk -f code.awk FILE.. pass=2 FILE..; of the files before pass=2 only signatures are read.
# Bodies of functions and values of constants are mutated; clauses, signatures and types are passed over. Who calls whom is written to `calls`.
BEGIN {
    public = "(pub([(](super|crate)[)])? )?"
    word = "^([A-Za-z0-9_]+|::|->|=>|[.][.]=?|&&|[|][|]|<<|>>|[-=!<>+*/%]=)"
    others("operator", "+ - *,- + /,* + /,/ * % -,% / *,<< >> *,>> << /,& |,| & +,&& ||,|| &&,+= -=,-= +=")
    others("comparison", "< <= > !=,<= < >= ==,> >= < !=,>= > <= ==,== != <= >=,!= == < >")
    others("constant", "true false,false true")
}
FNR == 1 { state = "outside" }
{ sub(/\/\/.*/, "") }
state != "clause" && /^ *(requires|ensures|ghost) *[{]/ { around = state; state = "clause"; depth = 0 }
state == "clause" { depth += gsub(/[{]/, "") - gsub(/[}]/, ""); if (depth == 0) state = around; next }
state == "outside" && $0 ~ "^ *" public "const " {
    match($0, /const [A-Z_0-9]+/)
    name = substr($0, RSTART, RLENGTH)
    n = own = open = 0
    tokens($0, index($0, "=") + 1)
    mutants()
}
state == "outside" && /^pub enum Refusal / && pass != 2 { state = "refusals"; before = "" }
state == "refusals" && /^[}]/ { state = "outside" }
state == "refusals" && /^ +[A-Z][A-Za-z]*( = [0-9]+)?,/ { match($0, /[A-Z][A-Za-z]*/); neighbours(substr($0, RSTART, RLENGTH)) }
state == "outside" && $0 ~ "^ *" public "fn " { state = "signature"; signature = "" }
state == "signature" { signature = signature " " $0 }
state == "signature" && /[{] *$/ { read_signature(signature); state = "body"; depth = 1; n = 0; open = FNR; next }
state == "body" {
    for (k = 1; k <= length($0) && depth > 0; k++) depth += (substr($0, k, 1) == "{") - (substr($0, k, 1) == "}")
    tokens(depth > 0 ? $0 : substr($0, 1, k - 2), 1)
    if (depth == 0) { state = "outside"; mutants() }
}

# The name of a function, whether it gives anything, and its parameters with their types.
function read_signature(s,    parts, k, m) {
    sub("^ *" public "fn +", "", s)
    name = s
    sub(/[<(].*/, "", name)
    gsub(/^[^(]*[(]|'[a-z]+ /, "", s)
    for (k = m = 1; m > 0 && k <= length(s); k++) m += (substr(s, k, 1) == "(") - (substr(s, k, 1) == ")")
    gives = substr(s, k) ~ /->/
    m = split(substr(s, 1, k - 2), parts, /, */)
    own = 0
    for (k = 1; k <= m; k++) {
        if (parts[k] !~ /:/) continue
        param[++own] = types[name, own] = parts[k]
        gsub(/:.*| |mut /, "", param[own])
        gsub(/^[^:]*: *| *$/, "", types[name, own])
    }
    count[name] = own
}
# Of the refusals, in the order in which they are declared, each may take its neighbours' places.
function neighbours(t) {
    kind_of[t] = "refusal"
    news[t] = before
    if (before != "") news[before] = news[before] " " t
    before = t
}
function is_name(t) { return t ~ /^[A-Za-z_]/ && t !~ /^(return|if|match|while|loop|else|let|mut|ref|move|as|in|for|true|false)$/ }
function is_operand(t) { return is_name(t) || t ~ /^[0-9]/ }
function mutants(    i, t, d, head) {
    for (i = n + 1; i in tok; i++) delete tok[i]
    for (i = 1; i <= n && pass == 2; i++) {
        t = tok[i]
        d = i > 1 ? tok[i - 1] : ""
        if (t == "|" && (head || !is_operand(d) && d !~ /^[])]$/)) { head = !head; continue } # around a closure's parameters
        if ((t in news) && (kind_of[t] == "constant" || is_operand(d) || d ~ /^[])]$/)) { each(i); operands(i, t, d, tok[i + 1]) }
        if (t ~ /^[0-9]/ && d != ".") number("constant", i)
        if (t ~ /^(&&|[|][|])$/ && (is_operand(d) || d ~ /^[])]$/)) one_side(i)
        if (t ~ /^(if|while)$/ && tok[i + 1] != "let") negated(i)
        if (kind_of[t] == "refusal" || t == "Err") refused(i, t, d)
        if (open && (i == 1 || d ~ /^[;{}]$/)) left_out(i, t)
        if ((t in count) && tok[i + 1] == "(") handed(i, t)
        if (is_name(t) && d !~ /^(\.|::)$/ && tok[i + 1] !~ /^([(:]|::)$/) parameter(i, t)
    }
    if (open && pass == 2) inserted()
}
# one operand for the other, and both exchanged
function operands(i, t, d, e) {
    if (t ~ /^([-+]=|&&|[|][|])$/ || !is_operand(d) || !is_operand(e) || d == e || tok[i - 2] ~ /^(\.|::|as|-|\*|\/|%|<<|>>)$/ || tok[i + 2] ~ /^([.([]|::)$/) return
    if (is_name(e)) replace("operand", i - 1, i - 1, e)
    if (is_name(d)) replace("operand", i + 1, i + 1, d)
    if (t ~ /^(-|\/|%|<<|>>|<|<=|>|>=)$/) exchange("operand", i - 1, i - 1, i + 1, i + 1)
}
# a condition for its negation
function negated(i,    k, sides) {
    for (k = i + 1; tok[k + 1] !~ /^([{]|=>)$/; k++) {
        if (tok[k + 1] ~ /^[([]$/) k = closing(k + 1) - 1
        sides += tok[k + 1] ~ /^(&&|[|][|])$/
    }
    if (tok[i + 1] == "!" && !sides) put(i + 1, i + 1, "")
    else { put(k, k, tok[k] ")"); put(i + 1, i + 1, "!(" tok[i + 1]) }
    mutant("condition")
}
# one side of an `&&` or `||` left out
function one_side(i,    k, depth) {
    for (k = i - 1; k > 0 && (depth > 0 || tok[k] !~ /^([({[;,=]|=>|&&|[|][|]|if|while|return)$/); k--)
        depth += (tok[k] ~ /^[])}]$/) - (tok[k] ~ /^[({[]$/)
    replace("condition", k + 1, i, "")
    for (k = i + 1; k <= n && tok[k] !~ /^([])};,{]|=>|&&|[|][|])$/; k++) k = closing(k)
    replace("condition", i, k - 1, "")
}
# a statement left out: an assignment, a call whose result is not used, an early return; and a call whose refusal is passed over
function left_out(i, t,    k) {
    if (t !~ /^[A-Za-z_*]/ || t ~ /^(let|return|match|while|loop|for|else)$/) return
    for (k = i; k <= n && tok[k] !~ /^[;)}\]]$/ && !(t == "if" && tok[k] == "{"); k++) k = closing(k)
    if (t == "if" && tok[k + 1] == "return" && tok[closing(k) - 1] == ";" && tok[closing(k) + 1] != "else") replace("statement", i, closing(k), "")
    if (t != "if" && tok[k] == ";") replace("statement", i, k, "")
    if (tok[k - 1] == "?" && tok[k] == ";") { put(k - 1, k - 1, ""); replace("refusal", i, i, "let _ = " t) }
}
# a refusal for another, and for none, `Ok(())`; a pattern stays
function refused(i, t, d) {
    if (t == "Err" && tok[i + 1] == "(" && !in_pattern(closing(i + 1))) replace("refusal", i, closing(i + 1), "Ok(())")
    if (d == "::" && !in_pattern(i)) each(i)
}
function in_pattern(i) {
    for (i++; tok[i] == ")"; i++);
    return tok[i] == "=>"
}
# of what is handed to a function: two of one type exchanged, a number for 0
function handed(i, t,    m, k, from, to, a, b) {
    if (calls && (tok[i - 1] != "." || tok[i - 2] == "self")) print name, t >calls
    for (k = i + 2; k <= closing(i + 1); k++) {
        if (k == i + 2 || tok[k - 1] == ",") from[++m] = k
        if (k < closing(i + 1)) k = closing(k)
        to[m] = k - 1
    }
    if (to[m] < from[m]) m--
    for (a = 1; a <= m && m == count[t]; a++) {
        for (b = a + 1; b <= m; b++) if (types[t, a] == types[t, b]) exchange("arguments", from[a], to[a], from[b], to[b])
        if (types[t, a] ~ /^(u32|usize)$/ && span(from[a], to[a]) !~ /^[0-9]+$/) replace("zero", from[a], to[a], "0")
    }
}
# a parameter for another of its type
function parameter(i, t,    a, b) {
    for (a = 1; a <= own && param[a] != t; a++);
    for (b = 1; b <= own && a <= own; b++) if (b != a && types[name, a] == types[name, b]) replace("parameter", i, i, param[b])
}
# where the last expression of the tokens from i to j begins
function last(i, j,    k, at) {
    at = i
    for (k = i; k < j; k++) {
        k = closing(k)
        if (k < j && (tok[k] == ";" || tok[k] == "}" && tok[k + 1] !~ /^(else|[.;,)])$/)) at = k + 1
    }
    return at
}
# a statement that writes a lent word: at the start of a body, and before its last expression or, where it gives nothing, at its end
function inserted(    a, k, new) {
    for (a = 1; a <= own; a++) {
        if (types[name, a] !~ /^&mut \[/) continue
        new = types[name, a] ~ /;/ ? param[a] "[0] = 99;" : "if " param[a] ".len() > 0 { " param[a] "[0] = 99; }"
        splice(open, length(text[open]) + 1, length(text[open]) + 1, " " new)
        mutant("insert")
        k = last(1, n)
        if (!gives) replace("insert", n, n, tok[n] " " new)
        else if (k > 1) replace("insert", k, k, new " " tok[k])
        for (k = 2; k <= n && gives; k++) if (tok[k - 1] == "=>") in_arm(k, param[a] ".fill(99);")
    }
}
# and before the last expression of an arm of a `match`, without a branch, which would give the arm's goals other names
function in_arm(i, new,    j) {
    for (j = closing(i); j < n && tok[j + 1] !~ /^[,}]$/; j = closing(j + 1));
    if (tok[i] == "{") { i = last(i + 1, j - 1); replace("insert", i, i, new " " tok[i]) }
    else if (span(i, j) != "") replace("insert", i, j, "{ " new " " span(i, j) " }")
}
