# Checks the documents. It is given, each behind an assignment to `kind`: the index (what declared.awk and rests.awk list, the files and programs there
# are, and the widest line of each source), paper 01, docs/DEMANDS.md, docs/PROVED.md, docs/ANSWER.md, docs/BELIEVE.md, and the pages
# of which only links and commands are checked. A check that fails prints FILE:LINE: and what is missing. The last line is 'N passed, M failed'.

BEGIN { FS = "\t" }

FNR == 1 { table = 0; fence = 0; section = ""; if (kind != "index") slugs() }

kind == "index" { index_line(); next }
kind == "paper" { paper_line(); next }
kind == "demands" { demand_line() }
/^## / { section = substr($0, 4) }
kind == "proved" { quotations(); rows() }
kind == "answer" { tokens($0, "", 0); statement() }
kind == "believe" { believed_line() }
kind != "index" && kind != "paper" { links(); if (kind != "proved") commands() }

END {
    functions()
    edits()
    lending()
    check(theorems > 0, "docs/ANSWER.md:1", "no theorem is printed as it is stated")
    belief()
    sentences()
    print passed " passed, " failed + 0 " failed"
    exit failed > 0
}

# Counts a check; says what is missing where it fails.
function check(holds, place, what) {
    if (holds) passed++
    else {
        failed++
        print place ": " what
    }
    return holds
}

function here() { return FILENAME ":" FNR }

# THE INDEX

function index_line() {
    if ($1 == "file") is_file[$2] = 1
    else if ($1 == "program") is_program[$2] = 1
    else if ($1 == "test") is_test[$2] = 1
    else if ($1 == "stated") stated[$2, $3] = stated[$2, $3] "\n" $4
    else if ($1 == "unread") check(0, $2, $3 ", which these checks do not read")
    else if ($1 == "width") check($3 <= 160, $2, "a line of " $3 " characters, over 160")
    else if ($1 == "antt") { if (antt[$2] != "pub") antt[$2] = $3 }
    else if ($1 == "text") { wording[$2, $3] = $4; wordings[$2, $3]++ }
    else if ($1 == "kind") { if ($3 == "definition") is_definition[$2] = 1 }
    else if ($1 == "says" || $1 == "made") rests[$2, $1, ++edges[$2, $1]] = $3
    else if ($1 == "kit") kit[$2, $4, ++kits[$2, $4]] = $3
    else if ($1 == "rattle") {
        rattle[$2] = $6
        if ($3 != "private" && $6 ~ /^fn/ && $6 !~ / again/) {
            public[$2] = $4 ":" $5
            if ($3 == "inner") inner[$2] = 1
        }
        if ($6 ~ / again/) typed[$4 ":" $5] = $2
        if ($4 ~ /main\.rt$/) of_program[crate_of($2)] = 1
    }
}

function crate_of(name) { sub(/::.*/, "", name); return name }

# CITATIONS

# Checks a citation; `column` is the head of its column, or nothing. Says whether it is one.
function citation(token, column,    path, known, what) {
    if (token ~ /^\.\//) return 0
    if (index(token, "/")) {
        path = token
        sub(/::.*/, "", path)
        if (!check(path in is_file, here(), "there is no file " path) || path == token) return 1
        check(token in is_test, here(), path " has no function " substr(token, length(path) + 3))
        return 1
    }
    if (index(token, "::")) {
        if (!check(token in rattle, here(), "no source file declares " token)) return 1
        what = rattle[token]
        if (what !~ /^fn/) return 1
        if (column == "Call") check(what !~ / requires/, here(), "the call " token " has a requires")
        if (column == "Call" || column ~ /^Contract/) check(what ~ / ensures/, here(), token " has no contract (ensures)")
        return 1
    }
    if (token ~ /^[a-z_0-9]+\.(proofs\.)?[A-Z][A-Za-z]*\.[^ ]+$/) {
        path = token
        if (!sub(/\.proofs\./, "/proofs/", path)) sub(/\./, "/specs/", path)
        sub(/^/, "crates/", path)
        sub(/\..*/, ".antt", path)
        known = token in antt
        if (check(known, here(), (path in is_file) ? path " declares no " substr(token, match(token, /[A-Z]/)) : "there is no file " path " for " token))
            check(antt[token] == "pub", here(), token " is not exported")
        return 1
    }
    return 0
}

# Checks the citations of a text, which stand in backquotes; gives how many there are. In a column that cites, all that stands in backquotes is one.
function tokens(text, column, place,    words, n, i, found) {
    n = split(text, words, "`")
    if (n && n % 2 == 0) check(0, here(), "an odd number of backquotes")
    for (i = 2; i <= n; i += 2) {
        if (citation(words[i], column)) {
            found++
            if (column != "Tried or tested by" && (kind == "answer" || kind == "proved" && section == "The demands")) root[words[i]] = here()
            if (place > 0) {
                cited[words[i]] = 1
                if (column == "Call") called[words[i]] = root[words[i]] = here()
            }
        } else if (place > 1) check(0, here(), "`" words[i] "` is no citation")
    }
    return found
}

# docs/ANSWER.md: a theorem is printed in a block of lines indented by four or more that begins with its name and a colon. These are, leading blanks and
# pub apart, all the lines of its statement in the file of specs or proofs that the page named last, and it stands there in no module, which might assume
# more.
function statement(    line) {
    line = $0
    if (match(line, /crates\/[a-z_]+\/(specs|proofs)\/[A-Za-z]+\.antt/)) spec = substr(line, RSTART, RLENGTH)
    if (!sub(/^     *(pub )?/, "", line)) {
        if (theorem != "") theorems += check(printed == stated[spec, theorem], theorem_place, spec " does not state " theorem " in just these lines")
        theorem = printed = ""
        indented = 0
        return
    }
    if (!indented++ && line ~ /^[^ ]+ : /) {
        theorem = substr(line, 1, index(line, " ") - 1)
        theorem_place = here()
    }
    printed = printed "\n" line
}

# docs/PROVED.md: its tables' rows, each of which cites something, and its text.
function rows(    text, cells, n, i, found) {
    text = $0
    gsub(/"[^"]*"/, "", text)
    if (text !~ /^\|/) {
        table = 0
        if (text !~ /^    /) tokens(text, "", 0)
        return
    }
    table++
    n = split(text, cells, "|")
    if (table == 1) {
        for (i = 2; i < n; i++) {
            head[i] = cells[i]
            gsub(/^ +| +$/, "", head[i])
        }
        columns = n
        return
    }
    if (table == 2) return
    check(n == columns, here(), "a row of " n - 2 " cells in a table of " columns - 2)
    for (i = 2; i < n; i++) found += tokens(cells[i], head[i], head[2] == "Citation" ? 0 : head[i] ~ /^Two wrong/ ? 1 : i - 1)
    check(found > 0, here(), "a row that cites nothing")
}

# QUOTATIONS, AND THE SENTENCES OF PAPER 01

# Every text between quotation marks is paper 01's, and in the section on the demands that of the demand that the row is of; in pieces where words are left
# out. A row of the section on the numbers begins with its number, and its quotations are that number's too.
function quotations(    words, parts, n, m, i, j, of, source) {
    of = ""
    source = paper
    if (section == "The demands") {
        of = $0
        of = sub(/^\| /, "", of) && sub(/\. .*/, "", of) ? "demand " of : "demand"
        source = demand[of]
    } else if (section == "Numbers that come back" && $0 ~ /^\| [0-9]+ "/) {
        of = $0
        sub(/^\| /, "", of)
        sub(/ .*/, "", of)
        of = "number " of
    }
    n = split($0, words, "\"")
    if (n && n % 2 == 0) check(0, here(), "an odd number of quotation marks")
    for (i = 2; i <= n; i += 2) {
        m = split(words[i], parts, / \.\./)
        for (j = 1; j <= m; j++) {
            gsub(/^[ ,]+| +$/, "", parts[j])
            if (parts[j] == "") continue
            check(index(source, parts[j]) > 0, here(), (of ~ /^demand/ ? of : "paper 01") " has no \"" parts[j] "\"")
            if (of !~ /^demand/) quote(parts[j], "")
            if (of != "") quote(parts[j], of)
        }
    }
}

function quote(text, of) {
    quoted[++quotes] = text
    quoted_of[quotes] = of
}

# A line of the paper is a paragraph, a rule or a row. Those for a later request are marked (02).
function paper_line(    line, number) {
    line = $0
    if (line == "" || line ~ /^#/ || line ~ /^\|---/ || line ~ /\(02\):/) return
    if (line ~ /^\| No\./) {
        paper = paper line
        return
    }
    number = line ~ /^\| [0-9]+ \| / ? "number " substr(line, 3, index(substr(line, 3), " ") - 1) : ""
    sub(/^- |^[0-9]+\. |^\| [0-9]+ \| /, "", line)
    sub(/ \|$/, "", line)
    paper = paper "\n" line
    to_quote(line, "")
    if (number != "") to_quote(line, number)
}

# A numbered demand.
function demand_line(    line, of) {
    line = $0
    if (line !~ /^[0-9]+\. /) return
    of = "demand " substr(line, 1, index(line, ".") - 1)
    sub(/^[0-9]+\. /, "", line)
    demand[of] = line
    to_quote(line, of)
}

# A text that rows have to quote: all rows (paper 01), those of a demand, or those of a number.
function to_quote(text, of) {
    block[++blocks] = text
    block_of[blocks] = of
    block_place[blocks] = here()
}

# Of each sentence, up to a stop or semicolon, at least half is quoted; of a demand's nine tenths.
function sentences(    b, i, j, at, from, size, text, mark, start, covered, all, inside) {
    for (b = 1; b <= blocks; b++) {
        size = length(block[b])
        split("", mark)
        for (i = 1; i <= quotes; i++) {
            if (quoted_of[i] != block_of[b]) continue
            from = 0
            while ((at = index(substr(block[b], from + 1), quoted[i])) > 0) {
                from += at
                for (j = 0; j < length(quoted[i]); j++) mark[from + j] = 1
            }
        }
        start = 1
        covered = all = 0
        for (i = 1; i <= size; i++) {
            all++
            if (i in mark) covered++
            text = substr(block[b], i, 2)
            if (text ~ /^\[/) inside = 1
            if (text ~ /^\]/) inside = 0
            if ((text == ". " || text == "; ") && !inside || i == size) {
                check(block_of[b] ~ /^demand/ ? 10 * covered >= 9 * all : 2 * covered >= all, block_place[b],
                    "no row " (block_of[b] == "" ? "" : "of docs/PROVED.md on " block_of[b] " ") "has the sentence: " substr(block[b], start, i - start + 1))
                start = i + 1
                covered = all = 0
            }
        }
    }
}

# PUBLIC FUNCTIONS, MUST-FAIL EDITS

# Every public function is in a row, and every one that other files of its crate may use; those of a library have a contract; methods that are public, C's
# functions and the audit are in a row of calls.
function functions(    name, what) {
    for (name in public) {
        what = rattle[name]
        if (!check(is_cited(name), public[name], "no row of docs/PROVED.md has the " (name in inner ? "inner" : "public") " function " name)) continue
        if (crate_of(name) in of_program) continue
        check(what ~ / ensures/, public[name], name " has no contract (ensures)")
        if (!(name in inner) && what ~ / (method|extern)/ || name ~ /^audit::/) check(is_called(name), public[name], name " is in no table of calls of docs/PROVED.md")
    }
}

# A method is cited with its type or without.
function is_cited(name) { return (name in cited) || (typed[public[name]] in cited) }

function is_called(name) { return (name in called) || (typed[public[name]] in called) }

function edits(    file) {
    for (file in is_file) if (file ~ /\/must-fail\//) check(file in cited, file ":1", "no row of docs/PROVED.md has this edit")
}

# AS_MUT_SLICE

# A check of text: the contract of as_mut_slice says nothing of the words beside the part, so its body is held to these two lines, the first of which
# lends the pool to be read only. The crate has one function of either name, so that no other can be taken for it.
function lending() {
    hold_to("pool::writing::ListPool::as_mut_slice", "body",
        "let Part { start, end } = self.part(pool, handles, slot); &mut pool[start..end]",
        "the body of as_mut_slice is not the two lines that find its part and lend it")
    hold_to("pool::reading::ListPool::part", "signature", "pub fn part(self, pool: &[u32], handles: &[u32], slot: usize) -> Part",
        "part, by which as_mut_slice finds its part, is not lent the pool to be read only")
}

function hold_to(name, what, text, fault) {
    check(wordings[name, "fn"] == 1, wording[name, "fn"], "the crate has " wordings[name, "fn"] + 0 " functions of the name of " name)
    check(wording[name, what] == text, wording[name, "fn"], fault)
}

# WHAT HAS TO BE BELIEVED

# docs/BELIEVE.md: the first column of its tables is the list; the line that begins with "Of the kit's library" names what is used of that.
function believed_line(    cells, words, n, i) {
    if ($0 ~ /^Of the kit's library/ || kit_lines && $0 != "") {
        kit_lines = here()
        n = split($0, words, "`")
        for (i = 2; i <= n; i += 2) kit_named[words[i]] = here()
        return
    }
    kit_lines = ""
    if ($0 !~ /^\|/) {
        table = 0
        tokens($0, "", 0)
        return
    }
    if (++table <= 2) return
    split($0, cells, "|")
    n = split(cells[2], words, "`")
    check(n > 2, here(), "a row that lists nothing")
    for (i = 2; i <= n; i += 2) {
        check(citation(words[i], ""), here(), "`" words[i] "` is no citation")
        check(!(words[i] in believed), here(), words[i] " is listed twice")
        check(words[i] !~ /^[a-z_0-9]+\.proofs\./, here(), words[i] " stands in a folder proofs, where laws stand and nothing that has to be believed")
        believed[words[i]] = here()
    }
}

# The list has just the definitions that are reached from the statements that docs/ANSWER.md and the demands' rows of docs/PROVED.md cite, and from the
# contracts of the calls. (A theorem's proof is not followed, nor a name that is cited as tried or tested by.)
function belief(    name, i) {
    for (name in root) {
        if (name in is_definition) reach(name, name)
        else follow(name, "says")
    }
    for (i = 1; i <= reached; i++) {
        follow(queue[i], "says")
        follow(queue[i], "made")
    }
    for (i = 1; i <= reached; i++) check(queue[i] in believed, "docs/BELIEVE.md:1", "no row has " queue[i] ", on which " reason[queue[i]] " rests")
    for (name in believed) check(name in reason, believed[name], "nothing that the pages cite rests on " name)
    for (name in kit_used) check(name in kit_named, "docs/BELIEVE.md:1", "the kit's " name " is not named, which " kit_used[name] " uses")
    for (name in kit_named) check(name in kit_used, kit_named[name], "no definition here uses the kit's " name)
}

function follow(name, what,    i) {
    for (i = 1; i <= edges[name, what]; i++) reach(rests[name, what, i], name)
    for (i = 1; i <= kits[name, what]; i++) if (!(kit[name, what, i] in kit_used)) kit_used[kit[name, what, i]] = name
}

function reach(name, from) {
    if (name in reason) return
    reason[name] = from
    queue[++reached] = name
}

# LINKS AND COMMANDS

# The headings of a page, as links name them.
function slugs(    line, slug) {
    while ((getline line < FILENAME) > 0) {
        if (line !~ /^#+ /) continue
        slug = tolower(line)
        sub(/^#+ /, "", slug)
        gsub(/[^a-z0-9 _-]/, "", slug)
        gsub(/ /, "-", slug)
        heading[FILENAME, slug] = 1
    }
    close(FILENAME)
}

function links(    text, target, folder) {
    text = $0
    folder = FILENAME
    if (!sub(/\/[^\/]*$/, "/", folder)) folder = ""
    while (match(text, /\]\([^) ]+\)/)) {
        target = substr(text, RSTART + 2, RLENGTH - 3)
        text = substr(text, RSTART + RLENGTH)
        if (target ~ /^[a-z]+:/) continue
        if (target ~ /^#/) {
            check((FILENAME, substr(target, 2)) in heading, here(), "no heading for the link " target)
            continue
        }
        sub(/#.*/, "", target)
        target = folder target
        while (sub(/[^\/]+\/\.\.\//, "", target)) { }
        check(target in is_file, here(), "a link to " target ", which is not there")
    }
}

# A line of shell in a page, indented by four or in a fence of sh, starts with a program of the repository; in a text it may stand in backquotes.
function commands(    words, n, i) {
    if ($0 ~ /^```/) {
        fence = fence ? 0 : ($0 ~ /^```(sh|shell|bash|console)?$/ ? 1 : 2)
        return
    }
    if (fence != 2 && (fence || $0 ~ /^    /)) command($0)
    if (fence) return
    n = split($0, words, "`")
    for (i = 2; i <= n; i += 2) command(words[i])
}

function command(text,    words, name) {
    sub(/^ *(\$ )?/, "", text)
    split(text, words, " ")
    name = words[1]
    if (name !~ /^(\.\/[a-z_-]+|\.ci\/[a-z]+|(tests|bench)\/([a-z_]+\/)*(run|make|bites|[a-z_]+\.sh))$/) return
    sub(/^\.\//, "", name)
    if (name == "maaliskur" && !(name in is_file)) return
    check(name in is_program, here(), "the command " words[1] " is no program of the repository")
}
