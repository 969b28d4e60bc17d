# Reads the sources of one crate twice, lib.rt first each time, and prints its part of docs/API.md; see tools/api. The first
# time (round 1) it only learns which names are public. With `base` the crate is a module of that name, and its file stands for lib.rt.

# The text without spaces around it.
function trimmed(text) { sub(/^[ \t]+/, "", text); sub(/[ \t]+$/, "", text); return text }

# The first sentence: up to a full stop before a capital, or all; of a crate that programs name (is_whole) always all.
function sentence(text) {
    if (!is_whole && match(text, /[^.]\. [A-Z`]/)) return substr(text, 1, RSTART + 1)
    return text
}

function first_of(text) {
    if (match(text, /[^.]\. [A-Z`]/)) return substr(text, 1, RSTART + 1)
    return text
}

# How many more braces a text opens than it closes.
function depth(text, opened, closed, copy) {
    copy = text; opened = gsub(/\{/, "", copy)
    copy = text; closed = gsub(/\}/, "", copy)
    return opened - closed
}

# The parameters of a type or an impl taken away from its front: `<A: B<C>> D` is `D`.
function unparameterised(text, at, level, letter) {
    if (substr(text, 1, 1) != "<") return text
    for (at = 1; at <= length(text); at++) {
        letter = substr(text, at, 1)
        if (letter == "<") level++
        else if (letter == ">" && substr(text, at - 1, 1) != "-") level--
        if (level == 0) return trimmed(substr(text, at + 1))
    }
    return text
}

# Prints a paragraph of a list in lines of at most 100 bytes; a word is never split.
function put(first, rest, text, count, words, i, line) {
    count = split(text, words, " ")
    line = first
    for (i = 1; i <= count; i++) {
        if (length(line) + 1 + length(words[i]) > 100 && line != first && line != rest) { print line; line = rest }
        line = line (line == first || line == rest ? "" : " ") words[i]
    }
    print line
}

function is_public(name) { return name in named || where == "" || where in opened }

function tell_wanting(what) { if (doc == "") print FILENAME ": `" what "` has no doc comment" >> wanting }

# The names of a list such as `{A, B}` or `A`, after a path.
function take_names(text, path, count, names, i) {
    sub(/^pub use /, "", text); sub(/;.*$/, "", text)
    path = text; sub(/::.*/, "", path)
    sub(/^.*::/, "", text); gsub(/[{} ]/, "", text)
    count = split(text, names, ",")
    for (i = 1; i <= count; i++) {
        if (names[i] == "") continue
        if (path ~ /^dspec_/) given[path] = given[path] (given[path] == "" ? "" : ", ") "`" names[i] "`"
        else named[names[i]] = 1
    }
    if (path ~ /^dspec_/ && !(path in is_given)) { is_given[path] = 1; givers[++giver_count] = path }
}

# What a call of this signature, with these clauses, refuses with.
# The last of types that commas part.
function last_of(text, within, from, at, letter) {
    within = 0
    from = 1
    for (at = 1; at <= length(text); at++) {
        letter = substr(text, at, 1)
        if (letter == "<" || letter == "(" || letter == "[") within++
        else if (letter == ">" || letter == ")" || letter == "]") within--
        else if (letter == "," && within == 0) from = at + 2
    }
    return substr(text, from)
}

function refusals(text, names, at) {
    at = index(text, "-> ")
    while (at && index(substr(text, at + 3), "-> ")) { text = substr(text, at + 3); at = index(text, "-> ") }
    if (!at) return "none"
    text = trimmed(substr(text, at + 3))
    if (text ~ /^Result</) { sub(/^Result</, "", text); sub(/>$/, "", text); return "`" last_of(text) "`" }
    if (text ~ /^io::Result</) return "`io::Error`"
    if (text ~ /^Option</) return "`None`"
    if (text == "bool" && (", " names ",") ~ /, refused,/) return "`false`"
    return "none"
}

function end_call(i) {
    if (is_listed) {
        tell_wanting(shown)
        gsub(/\( /, "(", signature); gsub(/,? \)/, ")", signature); gsub(/ +/, " ", signature)
        calls[++call_count] = owner
        call_signature[call_count] = signature
        call_doc[call_count] = sentence(doc)
        call_condition[call_count] = condition == "" ? "none" : condition
        call_refusals[call_count] = refusals(signature, clauses)
        call_clauses[call_count] = clauses == "" ? "none" : clauses
        call_file[call_count] = FILENAME
    }
    state = ""
    doc = ""
}

function end_clause(kind, name, text) {
    text = clause
    kind = text ~ /^requires/ ? "requires" : "ensures"
    sub(/^(requires|ensures)[ *]*/, "", text)
    name = text; sub(/[ {].*/, "", name)
    sub(/^[^{]*\{ */, "", text); sub(/ *\};?$/, "", text); gsub(/ +/, " ", text)
    if (kind == "requires") condition = condition (condition == "" ? "" : "; ") "`" text "`"
    else clauses = clauses (clauses == "" ? "" : ", ") (name == "" ? "one clause" : name)
    clause = ""
}

FNR == 1 {
    where = FILENAME; sub(/^crates\/[^\/]*\/src\//, "", where); sub(/\.rt$/, "", where)
    if (base != "") sub("^" base "/?", "", where)
    if (where == "lib") where = ""
    state = ""; doc = ""; owner = ""; is_trait = 0; body = ""
}

# What a type is, by its `derive` or by an `impl` of its own; an error of thiserror has its words by its `derive`.
function is_one(name, traits, count, list, i) {
    count = split(traits, list, /[ ,]+/)
    for (i = 1; i <= count; i++) is[name, list[i]] = 1
    if (is[name, "Error"]) is[name, "Display"] = 1
}
/^#\[derive\(/ { derived = $0; sub(/^#\[derive\(/, "", derived); sub(/\)\].*$/, "", derived) }
/^(pub(\([a-z]+\))? )?(struct|enum) / {
    name = $0; sub(/^(pub(\([a-z]+\))? )?(struct|enum) /, "", name); sub(/[^A-Za-z0-9_].*/, "", name)
    if (derived != "") is_one(name, derived)
    derived = ""
}
/^impl.* for / {
    text = unparameterised(trimmed(substr($0, 5)))
    name = text; sub(/^.* for &?/, "", name); sub(/[^A-Za-z0-9_].*/, "", name)
    sub(/ for .*/, "", text); sub(/^fmt::/, "", text)
    if (text ~ /^(Copy|Drop|Display|Error|Send)$/) is_one(name, text)
}

# The crate in a sentence.
round == 2 && where == "" && /^\/\/! / && !is_about_ended { about = about (about == "" ? "" : " ") substr($0, 5); next }
round == 2 && where == "" && !/^\/\/! / { is_about_ended = 1 }

# What other crates and files give.
state == "" && /^pub use / { uses = ""; state = "uses" }
state == "uses" {
    uses = uses " " trimmed($0)
    if ($0 ~ /;/) { if (round == 1) take_names(trimmed(uses)); state = "" }
    next
}
state == "" && /^pub mod / {
    name = $3; sub(/;.*/, "", name)
    if (where == "" || where in opened) opened[where == "" ? name : where "/" name] = 1
    doc = ""; next
}
round == 1 {
    if ($0 !~ /^pub (struct|enum|trait) /) next
    name = $3; sub(/[^A-Za-z0-9_].*/, "", name)
    if (is_public(name)) named[name] = 1
    next
}

# Doc comments stand before their item, with attributes between. Their paragraphs are told as one; a line of code stands in backticks.
state == "" && /^ *\/\/\/     [^ ]/ { doc = doc (doc == "" ? "" : " ") "`" trimmed(substr(trimmed($0), 5)) "`"; next }
state == "" && /^ *\/\/\/ / { text = trimmed($0); doc = doc (doc == "" ? "" : " ") substr(text, 5); next }
state == "" && /^ *\/\/\/$/ { next }
state == "" && /^ *#\[/ { next }

# A type's name with its parameters, and of a trait what stands on it.
function head_of(text) {
    sub(/^pub (struct|enum|trait) /, "", text)
    sub(/ *(\{.*|;)$/, "", text)
    if (match(text, /^[A-Za-z0-9_]+\(/)) text = substr(text, 1, RLENGTH - 1)
    return text
}

# Types and constants.
function add_type(name, head) {
    tell_wanting(name)
    types[++type_count] = name
    type_head[type_count] = head == "" ? name : head
    type_kind[type_count] = kind
    type_doc[type_count] = sentence(doc)
}
state == "" && /^    pub const [A-Z]/ && owner in named {
    kind = "const"; name = $3; sub(/:.*/, "", name)
    add_type(owner "::" name)
    doc = ""; next
}
state == "" && /^pub (struct|enum|trait|const|type) / {
    kind = $2; name = $3; sub(/[^A-Za-z0-9_].*/, "", name)
    if (is_public(name)) add_type(name, kind ~ /^(struct|enum|trait)$/ ? head_of($0) : "")
    if (kind == "trait") { owner = name; is_trait = is_public(name) }
    body = (kind == "struct" || kind == "enum") && $0 ~ /\{$/ && is_public(name) ? kind : ""
    doc = ""; next
}
state == "" && body == "struct" && /^    pub [a-z_0-9]+:/ { name = $2; sub(/:.*/, "", name); add_part(); next }
state == "" && body == "enum" && /^    [A-Z]/ { name = $1; sub(/[^A-Za-z0-9_].*/, "", name); add_part(); next }
function add_part() {
    parts[type_count] = parts[type_count] (parts[type_count] == "" ? "" : ", ") "`" name "`"
    if (is_of_parts) tell_wanting(types[type_count] "::" name)
    if (doc != "") said[type_count, ++said_count[type_count]] = "`" name "`: " sentence(doc)
    doc = ""
}

# Whose calls follow.
state == "" && /^impl/ {
    text = unparameterised(trimmed(substr($0, 5)))
    is_trait = 0
    if (text ~ / for /) owner = "-"
    else { owner = text; sub(/[^A-Za-z0-9_].*/, "", owner) }
    doc = ""; next
}
state == "" && /^\}/ { owner = ""; is_trait = 0; body = ""; doc = ""; next }

# Calls.
state == "" && (/^ *pub (const |unsafe )*fn / || (is_trait && /^    fn /)) {
    text = trimmed($0); sub(/^pub /, "", text); sub(/^(const |unsafe )*fn /, "", text)
    name = text; sub(/[^A-Za-z0-9_].*/, "", name)
    shown = owner == "" ? name : owner "::" name
    is_listed = owner == "-" ? 0 : owner == "" ? is_public(name) : owner in named
    signature = ""; condition = ""; clauses = ""; clause = ""; state = "signature"
}
state == "signature" {
    text = trimmed($0)
    if (text ~ /^(requires|ensures)/) state = "clauses"
    else {
        sub(/^pub /, "", text)
        is_over = text ~ /[{;]$|\{\}$/
        sub(/ *(\{\}|[{;])$/, "", text)
        signature = signature (signature == "" ? "" : " ") text
        if (is_over) end_call()
        next
    }
}
state == "clauses" {
    text = trimmed($0)
    if (clause == "" && text ~ /^(\{|\{\}|;)$/) { end_call(); next }
    clause = clause (clause == "" ? "" : " ") text
    if (depth(clause) == 0 && clause ~ /\{/) {
        is_over = clause ~ /;$/
        end_clause()
        if (is_over) end_call()
    }
    next
}
{ if ($0 !~ /^ *$/ || doc != "") doc = "" }

# What is told of a type: its kind, and which of these traits it has.
function kind_of(i, count, list, text, j) {
    text = type_kind[i]
    count = split("Copy Drop Display Error Send", list, " ")
    for (j = 1; j <= count; j++) if (is[types[i], list[j]]) text = text ", " list[j]
    return text
}

# With `of_types`, a list of names, nothing but these types is told.
function put_type(i, has, j) {
    has = parts[i] == "" ? "" : " Has " parts[i] "."
    put("- ", "  ", "`" type_head[i] "` (" kind_of(i) "): " type_doc[i] has)
    for (j = 1; j <= said_count[i]; j++) put("  - ", "    ", said[i, j])
}

END {
    if (of_types != "") {
        for (i = 1; i <= type_count; i++) if (index(" " of_types " ", " " types[i] " ")) put_type(i)
        exit
    }
    if (!giver_count && !type_count && !call_count) exit
    print ""
    print "## " crate
    print ""
    put("", "", first_of(about) " Its files are in `crates/" crate "`.")
    for (i = 1; i <= giver_count; i++) { print ""; put("", "", "It gives from `" givers[i] "`: " given[givers[i]] ".") }
    if (type_count) print ""
    for (i = 1; i <= type_count; i++) put_type(i)
    if (call_count) print ""
    for (i = 1; i <= call_count; i++) {
        print "- `" (calls[i] == "" ? "" : calls[i] "::") substr(call_signature[i], index(call_signature[i], "fn ") + 3) "`"
        put("  ", "  ", call_doc[i])
        stands = "Contract: " call_clauses[i] " (" call_file[i] ")."
        put("  ", "  ", "Condition: " call_condition[i] ". Refusals: " call_refusals[i] ". " stands)
    }
}
