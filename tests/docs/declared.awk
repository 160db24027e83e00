# Lists what the files declare, a line each, its parts behind tabs:
#
#     antt    CITATION  pub|private  FILE  LINE         a definition or theorem of a crate's specs, cited as crate.File.name, or of the files of laws
#                                                         in its folder proofs, cited as crate.proofs.File.name
#     rattle  CITATION  pub|inner|private  FILE  LINE  KIND   what a crate's source declares, cited as crate::file::name or crate::name; inner is what
#                                                         other files of the crate may use alone
#     test    PATH::NAME                                a function of a test in Rust or C
#
#     stated  FILE  NAME  LINE                            a line of the statement of what stands in no module, without leading blanks and pub
#     text    CITATION  fn|signature|body  TEXT           of the methods that `held` names: where each function of that name in the crate is,
#                                                         and signature and body without comments, on one line
#     unread  FILE:LINE                                   a block comment, past which none of these checks reads
#
# KIND is struct, const, or fn followed by what it has: method, extern, requires, ensures. The Lib.antt of the crates come first.

BEGIN {
    OFS = "\t"
    held["pool::reading::ListPool::part"] = held["pool::writing::ListPool::as_mut_slice"] = 1
}

FNR == 1 {
    flush()
    split(FILENAME, part, "/")
    crate = part[2]
    area = part[3]
    stem = part[4]
    sub(/\.[a-z]*$/, "", stem)
    type = ""
    in_record = 0
    language = FILENAME
    sub(/.*\./, "", language)
}

language ~ /^(antt|rt)$/ && /\{-|\/\*/ { print "unread", FILENAME ":" FNR, "a block comment" }
language == "antt" { antt(); next }
language == "rt" { rattle(); next }
language == "rs" { if (match($0, /(^|[ \t])fn [a-z_0-9]+/)) test(substr($0, RSTART, RLENGTH)); next }
language ~ /^(c|cc|h)$/ { if ($0 ~ /^[a-z].*[ *][a-z_0-9]+\(/ && $0 !~ /[;=]/) { sub(/\(.*/, ""); test($0) } next }

END { flush() }

# The last word of a text is a test's function.
function test(text, words, n) {
    n = split(text, words, /[ \t*]+/)
    print "test", FILENAME "::" words[n]
}

# A line of antt. What is exported has the word pub; fields of a record and constructors of a data type are no declarations of their own.
function antt(    words, n, i, exported, marked, indent, text) {
    match($0, /^ */)
    indent = RLENGTH
    n = split($0, words, " ")
    if (n == 0 || words[1] ~ /^--/) return
    text = $0
    sub(/^ *(pub )?/, "", text)
    if (stating != "" && indent > 0) {
        print "stated", FILENAME, stating, text
        return
    }
    stating = ""
    if (in_record && indent > record_indent) return
    in_record = 0
    i = 1
    while (words[i] ~ /^(pub|abbrev|unfoldable|opaque)$/) {
        marked = 1
        if (words[i] == "pub") exported = 1
        i++
    }
    if (words[i] == "mod") {
        module[crate, area, words[i + 1]] = exported
        return
    }
    # a set of rules to rewrite by, which nothing cites
    if (words[i] == "ruleset") return
    if (words[i] == "record" || words[i] == "data") {
        if (words[i + 1] == "{") return
        in_record = 1
        record_indent = indent
        i++
    } else if (!marked && words[i + 1] != ":") return
    print "antt", crate (area == "proofs" ? ".proofs." : ".") stem "." words[i], exported && module[crate, area, stem] ? "pub" : "private", FILENAME, FNR
    if (indent > 0 || words[i + 1] != ":") return
    stating = words[i]
    print "stated", FILENAME, stating, text
}

# A line of Rattle. A function's contract stands between its name and its body.
function rattle(    words, item) {
    if (holding != "") hold()
    if ($0 !~ /^ *\/\//) for (item in held) {
        split(item, words, "::")
        if (crate == words[1] && $0 ~ "fn +" words[4] "([^A-Za-z0-9_]|$)") print "text", item, "fn", FILENAME ":" FNR
    }
    if ($0 ~ /^impl /) {
        split($0, words, " ")
        type = words[2] "::"
        return
    }
    if ($0 ~ /^}/) type = ""
    if ($0 ~ /^ *(pub(\((super|crate)\))? )?(extern "C" )?fn /) {
        flush()
        open = 1
        kind = "fn"
        exported = $0 ~ /^ *pub / ? "pub" : $0 ~ /^ *pub\(/ ? "inner" : "private"
        if (type != "") kind = kind " method"
        if ($0 ~ /extern "C"/) kind = kind " extern"
        name = $0
        sub(/^.*fn /, "", name)
        sub(/[^A-Za-z0-9_].*/, "", name)
        name_line = FNR
        name_file = FILENAME
        name_place = place()
        name_type = type
        if ((name_place type name) in held) {
            holding = name_place type name
            holding_part = "signature"
            holding_text = $0
            holding_indent = match($0, /[^ ]/) - 1
        }
    } else if ($0 ~ /^ *(pub )?(const|struct|enum) /) {
        name = $0
        sub(/^ *(pub )?(const|struct|enum) /, "", name)
        sub(/[^A-Za-z0-9_].*/, "", name)
        say($0 ~ /^ *(pub )?const / ? "const" : "struct", name, $0 ~ /^ *pub / ? "pub" : "private", place(), type, FILENAME, FNR)
        return
    }
    if (!open) return
    if ($0 ~ /^ *requires ([a-z_]+ )?\{/) kind = kind " requires"
    else if ($0 ~ /^ *ensures ([a-z_]+ )?\{/) kind = kind " ensures"
    else if ($0 ~ /\{$/) flush()
}

# A further line of a function whose text is held: its signature up to the contract, and its body, from a line that has a brace alone.
function hold(    line) {
    line = $0
    sub(/ *\/\/.*/, "", line)
    if (holding_part == "signature" && line ~ /^ *(requires|ensures) ([a-z_]+ )?\{/) {
        held_text()
        holding_part = "contract"
    }
    if (line ~ /^ *[{}]$/ && match(line, /[{}]/) - 1 == holding_indent) {
        if (holding_part == "body") {
            held_text()
            holding = ""
        }
        holding_part = "body"
        holding_text = ""
    } else if (holding_part != "contract") holding_text = holding_text " " line
}

function held_text(    text) {
    text = holding_text
    gsub(/ +/, " ", text)
    gsub(/\( /, "(", text)
    gsub(/,? \)/, ")", text)
    gsub(/^ | $/, "", text)
    print "text", holding, holding_part, text
}

# Where a file's items are cited: its crate, and its own name unless it is the crate's root.
function place() { return crate "::" (stem == "lib" || stem == "main" ? "" : stem "::") }

# The function that was being read is done.
function flush() {
    if (open) say(kind, name, exported, name_place, name_type, name_file, name_line)
    open = 0
}

# A method is cited with its type or without.
function say(kind, name, exported, where, type, file, line) {
    print "rattle", where name, exported, file, line, kind
    if (type != "") print "rattle", where type name, exported, file, line, kind " again"
}
