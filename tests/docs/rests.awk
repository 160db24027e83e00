# Lists what statements and definitions rest on, a line each, its parts behind tabs:
#
#     kind  CITATION  definition|theorem    a declaration of a crate's specs, or of the files of laws in its folder proofs; a definition has one of the
#                                           words abbrev, unfoldable, opaque, record, data
#     says  CITATION  CITATION              the statement of the first (of a function: its contract) names the second
#     made  CITATION  CITATION              the definition of the first names the second
#     kit   CITATION  NAME  says|made       the statement, or the definition, of the first names this of the kit's library, a field behind a dot too
#     unread  FILE:LINE  WHAT               what is not followed, so that it fails: an operator of three places or more, a `use` of all names
#
# It reads text and elaborates nothing. A name is looked for in its own file, then in what the file's `use` lines bring, under a new name or passed on by
# `pub use` too. A statement has the parameters of the modules around it; a constructor stands for its data type; a struct is made of its fields' types.
# A bound variable that has the name of a definition counts as that definition. What a field behind a dot, an implicit argument or a notation brings is not
# seen, nor the prelude's names, which need no `use`, nor a constant in a field's type. A field is the kit's where no record here has one of its name, and in
# a contract where no struct has: these are the words and the place of a reference.

BEGIN {
    OFS = "\t"
    # the crates whose files are read: what is behind Rattle. and one of these is here, and all else the kit's
    for (i = 1; i < ARGC; i++) if (split(ARGV[i], part, "/") > 2) here[part[2]] = 1
}

FNR == 1 {
    uses()
    clause = in_struct = opening = 0
    split(FILENAME, part, "/")
    crate = part[2]
    stem = part[4]
    sub(/\.[a-z]*$/, "", stem)
    language = FILENAME
    sub(/.*\./, "", language)
    file = crate (language == "rt" ? "::" : part[3] == "proofs" ? ".proofs." : ".") stem
    modules = 0
    current = type = ""
}

{ sub(/(^|[ \t]+)--( .*)?$/, "") }

# a `use` line, and the lines that go on with it
using != "" && (/^[ \t}]/ || using ~ /\{[^}]*$/) { using = using " " $0; next }
{ uses() }
/^((ghost|pub|unfoldable) )*use / { using = $0; next }
language == "antt" { antt(); next }
language == "rt" { rattle(); next }

END {
    uses()
    for (name in kind) print "kind", name, kind[name]
    for (name in says) names(name, "says", says[name])
    for (name in made) names(name, "made", made[name])
}

# What a file brings in: names of another file, or the file itself under a short name; in code, types.
function uses(    path, from, words, pair, n, i) {
    path = using
    using = ""
    if (!sub(/^.*use /, "", path)) return
    if (index(path, "::")) {
        n = split(path, words, /[^A-Za-z0-9_]+/)
        from = words[1] ~ /^(super|crate|self)$/ ? crate : words[1]
        for (i = 2; i <= n; i++) if (words[i] ~ /^[A-Z]/) brought[file, words[i]] = from "::" words[i]
        return
    }
    from = path
    if (!sub(/[ .]*\{.*/, ".", from)) from = ""
    gsub(/^.*\{|[;}].*/, "", path)
    n = split(path, words, ",")
    for (i = 1; i <= n; i++) {
        if (!split(words[i], pair, " ")) continue
        if (pair[1] ~ /\.\*$/) unread("a use of all names")
        words[i] = pair[2] == "as" ? pair[3] : last_of(pair[1])
        if (from == "") short[file, words[i]] = cited(pair[1] ".")
        else brought[file, bare(words[i], 1)] = cited(from pair[1])
    }
}

function unread(what) { print "unread", FILENAME ":" FNR, what }

function last_of(path) { sub(/.*\./, "", path); return path }

# How an item is cited from its path: by crate and file, by the crate whose code has it, or as the kit's. (A module's path ends with a dot.)
function cited(path,    name, of) {
    name = last_of(path)
    sub(/\.[^.]*$/, "", path)
    if (!is_here(path)) return "kit." name
    sub(/^Rattle\./, "", path)
    of = substr(path, 1, index(path, ".") - 1)
    # a variant stands for its enum
    if (sub(/\.TheVariants$/, "", path)) return of "::" last_of(path)
    return of (index(path, ".declared.") ? "::" : (index(path, ".proofs.") ? ".proofs." : ".") last_of(path) ".") name
}

# Is it a path to a file of one of the crates here?
function is_here(path,    steps) { return split(path, steps, ".") > 2 && steps[1] == "Rattle" && steps[2] in here }

# An operator is written without its places.
function bare(name, declares) {
    gsub(/^(◌)+|(◌)+$/, "", name)
    if (declares && index(name, "◌")) unread("an operator of three places or more")
    return name
}

# A line of antt: a declaration, whose statement goes on in the lines that are indented deeper; then its clauses.
function antt(    words, n, i, indent, marked, what, name, text) {
    match($0, /^ */)
    indent = RLENGTH
    n = split($0, words, " ")
    if (n == 0) return
    if (opening) {
        module_text[modules] = module_text[modules] " " $0
        opening = $0 !~ /where$/
        return
    }
    while (modules && indent <= module_indent[modules]) modules--
    if (current != "" && indent > own_indent) {
        add($0)
        return
    }
    current = ""
    if (words[1] == "module") {
        module_indent[++modules] = indent
        text = $0
        sub(/^ *module _/, "", text)
        opening = $0 !~ /where$/
        module_text[modules] = text
        return
    }
    i = 1
    marked = 0
    while (words[i] ~ /^(pub|abbrev|unfoldable|opaque)$/) {
        if (words[i] != "pub") marked = 1
        i++
    }
    what = words[i]
    if (what ~ /^(mod|infix[lr]?)$/) return
    if (what == "unfolding" || what == "ruleset") {
        current = "-"
        own_indent = indent
        return
    }
    if (what == "record" || what == "data") i++
    else if (!marked && i == 1 && words[2] != ":") {
        # a clause of the last declaration
        current = declared
        own_indent = indent
        state = "made"
        add($0)
        return
    }
    name = file "." words[i]
    declared = current = name
    own_indent = indent
    spelled[file, bare(words[i], 1)] = name
    kind[name] = marked || what == "record" || what == "data" ? "definition" : "theorem"
    state = what == "record" || what == "data" ? what : "says"
    text = $0
    sub(/^ */, "", text)
    for (; i > 1; i--) sub(/^[^ ]+ +/, "", text)
    sub(/^[^ ]+ +/, "", text)
    for (n = 1; n <= modules; n++) says[name] = says[name] " " module_text[n]
    says[name] = says[name] " " text
}

# A further line of the declaration at hand. A field is what its type says; a constructor too, and it stands for its data type.
function add(line,    words, n) {
    if (current == "-") return
    if (state == "record" || state == "data") {
        sub(/^ *(pub )?/, "", line)
        n = split(line, words, " ")
        if (words[2] == ":") {
            if (state == "data") spelled[file, bare(words[1], 1)] = current
            else is_field[words[1]] = 1
            sub(/^[^ ]+ +/, "", line)
        }
        made[current] = made[current] " " line
    } else if (state == "says") says[current] = says[current] " " line
    else made[current] = made[current] " " line
}

# A line of Rattle: of a function its contract counts, whose clauses stand between its name and its body; of a struct its fields.
function rattle(    name, place) {
    place = crate "::" (stem == "lib" || stem == "main" ? "" : stem "::")
    if (clause) {
        contract($0)
        return
    }
    if ($0 ~ /^impl /) {
        split($0, part, " ")
        type = part[2]
        return
    }
    if ($0 ~ /^}/) type = ""
    name = $0
    sub(/^.*(fn|struct|enum) /, "", name)
    sub(/[^A-Za-z0-9_].*/, "", name)
    if ($0 ~ /^ *(pub )?(struct|enum) /) {
        in_struct = spelled[file, name] = place name
        of_file[in_struct] = file
    }
    if (in_struct) {
        gsub(/\/\/.*|[][<>&]/, " ")
        if (match($0, /^ *(pub )?[a-z_0-9]+:/)) {
            name = substr($0, 1, RLENGTH - 1)
            sub(/.* /, "", name)
            is_field[name] = of_struct[name] = 1
        }
        gsub(/(super|crate|self)::/, crate "::")
        made[in_struct] = made[in_struct] " " $0
        if ($0 ~ /[;}] *$/) in_struct = 0
        return
    }
    if ($0 ~ /^ *(pub(\((super|crate)\))? )?(extern "C" )?fn /) {
        function_name = place name
        method_name = type == "" ? "" : place type "::" name
        of_file[function_name] = of_file[method_name] = file
        return
    }
    if ($0 ~ /^ *(requires|ensures) ([a-z_]+ )?\{/) contract($0)
}

function contract(line,    opened, closed) {
    says[function_name] = says[function_name] " " line
    if (method_name != "") says[method_name] = says[method_name] " " line
    opened = gsub(/\{/, " ", line)
    closed = gsub(/\}/, " ", line)
    clause += opened - closed
}

# The names of a text that are declarations of the specs, or structs that they cite, each once, and the kit's fields. What names another field is left out.
function names(name, what, text,    words, parts, seen, n, m, i, j, from, to) {
    from = name in of_file ? of_file[name] : name
    if (!(name in of_file)) sub(/\.[^.]*$/, "", from)
    gsub(/[{;] *[^ ;{}()]+ = /, " ", text)
    gsub(/[(){},;]/, " ", text)
    n = split(text, words, /[ \t]+/)
    for (i = 1; i <= n; i++) {
        m = split(words[i], parts, ".")
        if (m > 1 && !is_here(words[i]) && !((from, parts[1]) in short)) for (j = 2; j <= m; j++) {
            if (parts[j] !~ /^[a-z]/ || (name in of_file ? parts[j] in of_struct : parts[j] in is_field) || seen["." parts[j]]++) continue
            print "kit", name, parts[j], what
        }
        if (words[i] == "" || words[i] ~ /^\./) continue
        sub(/\.$/, "", words[i])
        to = meant(from, words[i])
        if (to == "" || to == name || seen[to]++) continue
        if (sub(/^kit\./, "", to)) print "kit", name, bare(to), what
        else print what, name, to
    }
}

# What a word means in a file: a name, or one behind its whole path, a module's short name or its data type. A constructor stands for its data type, and a
# name that a file passes on for what that file brought.
function meant(from, word,    to, head, tail) {
    word = bare(word)
    if (word in of_file) return word
    if ((from, word) in spelled) return spelled[from, word]
    if ((from, word) in brought) to = brought[from, word]
    else if (is_here(word)) to = cited(word)
    else if (!index(word, ".")) return ""
    else {
        head = tail = word
        sub(/\..*/, "", head)
        sub(/^[^.]*\./, "", tail)
        if (!((from, head) in short)) return meant(from, head)
        to = short[from, head] tail
    }
    if (to ~ /^kit\.|::/) return to
    from = to
    sub(/\.[^.]*$/, "", from)
    head = meant(from, last_of(to))
    return head == "" ? to : head
}
