# Lists the mutants of definitions: awk -f list.awk -f definitions.awk FILE.. `use` lines, comments and signatures are passed over, and what stands
# before a line's `=`. What takes a token's place is something that the file has in scope.
BEGIN {
    word = "^[^ (){};,.]+"
    others("operator", "+ - *,- +,* + ^,/ * %,% /,^ *,min ◌+◌")
    others("test", "ltb leb eqb,leb ltb eqb,eqb leb ltb,|| &&,&& ||")
    others("constant", "true false,false true")
}
FNR == 1 { scope = "" }
/^use / { scope = scope " " $0 " "; gsub(/[{},]/, " ", scope) }
/^ *((unfoldable|abbrev) (pub )?[^ ]+ .*:|(pub )?(record|data) )/ {
    name = $0
    sub(/^ *((unfoldable|abbrev|pub|record|data) )+/, "", name)
    sub(/ .*/, "", name)
    n = left = 0
    next
}
!/^ *(--|unfolding )|^(use|infix|module|open)|^ *$/ {
    first = n + 1
    tokens($0, 1)
    for (i = first; i <= n; i = closing(i) + 1) {
        if (tok[i] ~ /^(=|in)$/) left = i + 1
        if (tok[i] == "or_else" && left) { order(left, i); left = i + 1 }
        if (tok[i] == "=") first = i
    }
    for (i = first; i <= n; i++) {
        if (i > 1 && tok[i - 1] ~ /^([.]|Type)$/) continue
        if (tok[i] ~ /^(done|seated)$/) value(i + 1)
        if (tok[i] == "answer" && tok[i + 1] !~ /^[:=]$/) value(closing(i + 1) + 1)
        if (tok[i] ~ /^[0-9]+$/) number("constant", i)
        if (tok[i] in news) each(i)
        if (tok[i] == "false" && !in_scope("true")) replace("constant", i, i, "(not false)")
    }
}
# two neighbours in a chain of numbers exchanged, the first from `left` on
function order(left, i,    k) {
    for (k = closing(i + 1); k < n && tok[k + 1] != "or_else"; k = closing(k + 1));
    exchange("order", left, i - 1, i + 1, k)
}
# the value of a call: a number for its neighbours, anything else for 0 and for one more
function value(i) {
    if (tok[i] ~ /^[0-9]+$/) number("value", i)
    else { replace("value", i, closing(i), "0"); replace("value", i, closing(i), "(" span(i, closing(i)) " + 1)") }
}
