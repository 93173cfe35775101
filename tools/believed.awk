# What must be believed: from the public contracts and the public statements on, every definition that they come to. Files are
# read as text, by the layout that rt fmt gives them; what cannot be read so is told, and not passed over. Every awk prints the
# same bytes. Input: crates.txt, and then the names of all .antt and .rt files, sorted. docs/PROMISES.md says which statements
# are public.
#
# A thing (a definition, a law, a function, a struct or enum) goes by its place, FILE:LINE, its id:
#   kind[id], name[id], home[id], line_of[id], size[id]   what it is and is called, its file, its line, its lines of code
#   given[id], piece[id, 1 .. pieces[id]]   the parameters of the modules around it; its text, cut where a scope ends
# A name in a file goes by (file, name): own is what the file declares; brought and alias are what its `use` lines bring of the
# crates here, and kit what they bring of the toolchain's. The head of a path is read as one word, `Rattle·clock` for `Rattle.clock`.

# A sentence for each thing that is wrong.
function problem(words) {
    if (!(words in told)) print "believed: " words > "/dev/stderr"
    told[words] = failed = 1
}

# ---- Reading

# A line of code without its texts and its comment.
function code(line, comment,    at) {
    gsub(/"([^"\\]|\\.)*"/, "\"\"", line)
    at = match(" " line, "[ (]" comment)
    if (at) line = substr(line, 1, at - 1)
    sub(/ +$/, "", line)
    gsub(/Rattle[.]/, "Rattle·", line)
    return line
}

function crate_of(file) { sub(/^crates\//, "", file); sub(/\/.*/, "", file); return file }

# The crate of a module's path, by its head. What is of no crate here is the kit's, and is not followed.
function crate_in(head) { return index(head, "Rattle·") == 1 ? substr(head, length("Rattle·") + 1) : "" }
function is_here(head) { return crate_in(head) in listed_crate }

function thing(file, at, what, called,    id) {
    id = file ":" at
    kind[id] = what; name[id] = called; home[id] = file; line_of[id] = at; size[id] = 1; given[id] = ""
    things[file] = things[file] " " id
    return id
}

function add_piece(id, how, text) { piece_kind[id, ++pieces[id]] = how; piece[id, pieces[id]] = text }

# `use M.{a, b as c, N.d}`, `use M as x` or `use M`. What is cited is kept as `M.{a`, and a whole module as `M.{`.
function bring(file, text,    at, module, here, list, n, k, word, m, called) {
    sub(/^(pub )?use +/, "", text)
    sub(/^package[.]/, "", text)
    module = text
    sub(/[. ].*/, "", module)
    if (((file, module) in alias) || text ~ /[.][*]$/) problem(file ": a `use` line that this cannot follow: " text)
    here = is_here(module)
    at = index(text, ".{")
    module = at ? substr(text, 1, at - 1) : text
    if (at) {
        text = substr(text, at + 2)
        if (text ~ /[{]/) problem(file ": a `use` line that this cannot follow: " module ".{" text)
        sub(/[}].*/, "", text)
        n = split(text, list, ",")
        for (k = 1; k <= n; k++) if ((m = split(list[k], word, " ")) > 0) {
            called = last_name(word[m])
            if (here) { brought[file, called] = module ".{" word[1]; uses[file] = uses[file] " " module ".{" word[1] }
            else { gsub(/◌/, "", called); kit[file, called] = module "." word[1] }
        }
    } else if (here) {
        m = split(module, word, " ")
        module = word[m]
        sub(/.*[.]/, "", module)
        alias[file, module] = word[1]
        uses[file] = uses[file] " " word[1] ".{"
    }
}

# Definitions and laws. A declaration begins at the indentation of its block, and goes on in deeper lines, and in clauses, which
# begin with its name; `module _ (..) where` begins a block.
function read_antt(file,    text, at, indent) {
    depth = block[0] = 0
    around[0] = state = current = ""
    for (at = 1; (getline text < file) > 0; at++) {
        text = code(text, "--")
        if (text ~ /(^| )[{]-/) problem(file ":" at ": a block comment, which this cannot read")
        indent = match(text, /[^ ]/) - 1
        if (indent < 0) continue
        text = substr(text, indent + 1)
        while (indent < block[depth]) depth--
        if (indent > block[depth] || text ~ /^[)}]/) goes_on(file, indent, text)
        else begins(file, at, text)
        if (state == "module" && heading ~ / where$/) {
            depth++
            block[depth] = block[depth - 1] + 2
            around[depth] = around[depth - 1] " " substr(heading, length("module _ "))
            state = ""
        }
        if (state == "use" && (heading !~ /[{]/ || heading ~ /[}]/)) { bring(file, heading); state = "" }
    }
    close(file)
}

function begins(file, at, text,    word, k, what) {
    heading = text
    split(text, word, " ")
    if (text ~ /^(pub )?use /) state = "use"
    else if (text ~ /^(pub )?mod /) { state = "mod"; alias[file, word[1] == "pub" ? word[3] : word[2]] = "" }
    else if (word[1] == "module") state = "module"
    # A list of laws for the check's search states nothing.
    else if (text ~ /^(pub )?ruleset /) { state = "ruleset"; current = "" }
    else if (current != "" && word[1] == name[current]) {
        size[current]++
        state = kind[current] == "law" ? "proof" : "clause"
        if (state == "clause") add_piece(current, "clause", text)
    } else if (current != "" && word[1] == "unfolding") { size[current]++; state = "proof" }
    else {
        what = "law"
        shape = ""
        for (k = 1; word[k] ~ /^(pub|abbrev|unfoldable|axiom|record|data)$/; k++) {
            if (word[k] !~ /^(pub|axiom)$/) what = "definition"
            if (word[k] ~ /^(record|data)$/) shape = word[k]
            sub(/^[^ ]+ +/, "", text)
        }
        if (shape == "" && word[k + 1] !~ /^([{].*|:)$/) { problem(file ":" at ": a line that this cannot read: " heading); return }
        if (word[k] ~ /◌/) problem(file ":" at ": an operator, `" word[k] "`, whose uses this cannot follow")
        current = own[file, word[k]] = thing(file, at, what, word[k])
        public[current] = heading ~ /^((abbrev|unfoldable|axiom) )*pub /
        given[current] = around[depth]
        text = substr(text, length(word[k]) + 1)
        add_piece(current, shape == "" ? "signature" : "head", text)
        state = shape == "" ? "signature" : text ~ / where$/ ? "members" : "head"
    }
}

function goes_on(file, indent, text,    word, k) {
    if (state == "module" || state == "use") heading = heading " " text
    if (current == "" || state !~ /^(signature|clause|proof|head|members)$/) return
    size[current]++
    if (state == "members" && indent == block[depth] + 2) {
        add_piece(current, "member", text)
        if (shape == "record") return
        split(text, word, " ")
        for (k = 1; word[k] != ":" && word[k] != ""; k++) { own[file, word[k]] = current; constructor[file, word[k]] = 1 }
    } else if (state != "proof") piece[current, pieces[current]] = piece[current, pieces[current]] " " text
    if (state == "head" && text ~ /(^| )where$/) state = "members"
}

# Code: its modules, structs and enums, and functions to the end of their contracts. Bodies are passed over.
function read_rt(file,    text, at, indent, state, from, id) {
    state = ""
    for (at = 1; (getline text < file) > 0; at++) {
        text = code(text, "//")
        indent = match(text, /[^ ]/) - 1
        if (indent < 0) continue
        text = substr(text, indent + 1)
        if (state == "") {
            from = indent
            if (text ~ /^pub use |^use .*[*]|^use .*[{].*[{]|^use [^;]*$/) problem(file ":" at ": a `use` line that this cannot follow: " text)
            else if (text ~ /^(pub([(][a-z]+[)])? )?type /) problem(file ":" at ": another name for a type, which this cannot follow: " text)
            else if (text ~ /^ghost use /) { sub(/^ghost /, "", text); sub(/;$/, "", text); bring(file, text) }
            else if (text ~ /^use /) use_of_code(file, text)
            else if (text ~ /^pub mod /) { sub(/^pub mod /, "", text); sub(/;$/, "", text); opened[file, text] = 1 }
            else if (match(text, /^(pub([(][a-z]+[)])? )?(struct|enum) /)) {
                id = thing(file, at, "type", word_from(text, RLENGTH + 1))
                own[file, "declared." name[id]] = id
                add_piece(id, "type", text)
                if (text !~ /;$/) state = "type"
            } else if (match(text, /^(pub([(][a-z]+[)])? )?trait /) || (match(text, /^impl(<[^>]*>)? /) && text ~ / for [A-Za-z0-9]+ [{]$/)) {
                # A trait and its impl go by the ghost members above the first function: behind that stand laws, which are proved.
                name_here = word_from(text, RLENGTH + 1)
                if (text ~ /^impl/) { sub(/.* for /, "", text); name_here = word_from(text, 1) name_here }
                id = thing(file, at, "type", name_here)
                own[file, "declared." name_here] = id
                state = "ghosts"
            } else if (match(text, /^(pub([(][a-z]+[)])? )?(extern [^ ]* )?fn /)) {
                id = thing(file, at, "function", word_from(text, RLENGTH + 1))
                public[id] = text ~ /^pub (extern|fn)/
                own[file, "function." name[id]] = id
                add_piece(id, "function", text)
                state = "function"
            }
        } else if (state == "ghosts") {
            if (text ~ /^ghost /) { size[id]++; sub(/^ghost +[A-Za-z_]+ *[:=]/, "", text); add_piece(id, "ghost", text) }
            else if (text ~ /^fn / || (indent == from && text ~ /^[}]/)) state = text ~ /^fn .*[^;{]$/ ? "method" : ""
        } else if (state == "method") {
            if (text ~ /[;{]$/) state = ""
        } else {
            size[id]++
            piece[id, 1] = piece[id, 1] " " text
            if (state == "type" && indent == from + 4) variant[id, word_from(text, 1)] = 1
            if (state == "type" && indent == from && text ~ /^[}]/) state = ""
        }
        if (state == "function" && (text == "{" || (text ~ / [{]$/ && text !~ /^(requires|ensures)[* ]/))) state = ""
    }
    close(file)
}

# `use a::b;` and `use a::{b, c::d};`
function use_of_code(file, text,    at, head, list, n, k) {
    sub(/^use /, "", text)
    sub(/;$/, "", text)
    at = index(text, "{")
    head = at ? substr(text, 1, at - 1) : ""
    if (at) text = substr(text, at + 1)
    gsub(/[} ]/, "", text)
    n = split(text, list, ",")
    for (k = 1; k <= n; k++) if (list[k] != "") rust_use[file, last_part(list[k])] = head list[k]
}

function last_name(path) { sub(/.*[.]/, "", path); return path }
function word_from(text, at) { text = substr(text, at); sub(/[^A-Za-z0-9_].*/, "", text); return text }
function last_part(path) { sub(/.*::/, "", path); return path }

# Of proofs/ only what is come to is read.
function load(file) {
    if (file in loaded) return
    loaded[file] = 1
    if (file ~ /[.]rt$/) read_rt(file)
    else read_antt(file)
}

# ---- What a name stands for: "" where that is the kit's, or nothing. as_constructor tells whether it was a constructor's name.

function resolve(file, word,    at, head) {
    sub(/^package[.]/, "", word)
    if ((file, word) in kit) { use_kit(file, kit[file, word]); return "" }
    as_constructor = (file, word) in constructor
    if ((file, word) in own) return own[file, word]
    if ((file, word) in brought) return cited(file, brought[file, word])
    # A path: to a constructor behind its type, or to a name of a module.
    at = index(word, ".")
    if (at < 2) return ""
    head = substr(word, 1, at - 1)
    if (((file, head) in own) || ((file, head) in brought)) { head = resolve(file, head); as_constructor = 1; return head }
    if ((file, head) in alias) {
        if (alias[file, head] == "") problem(file ": a path by a `mod` line, which this cannot follow: " word)
        word = alias[file, head] substr(word, at)
    } else if (!is_here(head)) { use_kit(file, word); return "" }
    at = match(word, /[.][^.]*$/)
    return cited(file, substr(word, 1, at) "{" substr(word, at + 1))
}

# The thing that `M.{name` is; with no name it is asked only whether the module is there.
function cited(file, what,    module, word) {
    if (!(what in known)) { known[what] = find(what); known_constructor[what] = as_constructor }
    as_constructor = known_constructor[what]
    if (known[what] == "") {
        module = word = what
        sub(/[.][{].*/, "", module)
        sub(/.*[.][{]/, "", word)
        problem(file ": " (word == "" ? "" : "`" word "` of ") "`" module "` cannot be found")
    }
    return known[what]
}

function find(what,    at, word, part, n, k, crate, file, id) {
    as_constructor = 0
    at = index(what, ".{")
    word = substr(what, at + 2)
    what = substr(what, 1, at - 1)
    # `M.{N.a}` is a of M.N.
    for (; (at = index(word, ".")) > 0; word = substr(word, at + 1)) what = what "." substr(word, 1, at - 1)
    n = split(what, part, ".")
    crate = crate_in(part[1])
    if (part[3] == "declared") {
        as_constructor = part[n] == "TheVariants"
        id = in_code(crate, part, 4, n - as_constructor, "declared.")
        return !as_constructor || word == "" || ((id, word) in variant) ? id : ""
    }
    file = "crates/" crate "/" part[2]
    for (k = 3; k <= n; k++) file = file "/" part[k]
    file = file ".antt"
    if (file in listed) {
        load(file)
        as_constructor = (file, word) in constructor
        return word == "" ? file : ((file, word) in own) ? own[file, word] : ""
    }
    # What the check makes of a function or of a struct stands for that: `F`, `F.Reads`, `S.Laws`, and in `specs.contracts` its contract.
    id = ""
    at = part[2] == "specs" && part[3] == "contracts" ? 4 : 3
    for (k = n; (part[2] == "proofs" || at == 4) && k >= at && id == ""; k--) {
        id = in_code(crate, part, at, k, "function.")
        if (id == "") id = in_code(crate, part, at, k, "declared.")
    }
    return id
}

# A struct, an enum or a function: its modules and its name are parts `from` to `to` of a path.
function in_code(crate, part, from, to, sort,    file, k) {
    file = "crates/" crate "/src"
    for (k = from; k < to; k++) file = file "/" part[k]
    if (from == to) file = file (((file "/lib.rt") in listed) ? "/lib" : "/main")
    file = file ".rt"
    return ((file, sort part[to]) in own) ? own[file, sort part[to]] : ""
}

function rust_type(file, word,    part, n, crate) {
    if ((file, "declared." word) in own) return own[file, "declared." word]
    n = split(word, part, "::")
    if ((file, part[1]) in rust_use) n = split(rust_use[file, part[1]] substr(word, length(part[1]) + 1), part, "::")
    crate = part[1] == "crate" ? crate_of(file) : part[1]
    return n > 1 && (crate in listed_crate) ? in_code(crate, part, 2, n, "declared.") : ""
}

# A word of the toolchain's kit, by its path, in what must be believed: the page tells what it is.
function use_kit(file, path) {
    if (believed) return
    if (path in kit_same) path = kit_same[path]
    kit_used[path] = 1
    if (!(path in kit_row)) problem(file ": `" path "` is a word of the kit that the page does not tell")
}

# A row of the page: words of one module of the kit, how they are written, and what they are.
function kit_words(module, words, written, meaning,    word, n, k) {
    n = split(words, word, " ")
    for (k = 1; k <= n; k++) kit_row[module "." word[k]] = 1
    kit_line[++kit_rows] = "| " written " | " meaning " |"
}

# Words of the Prelude by the path from which it passes them on: laws name some so.
function kit_also(prelude, module, words,    word, n, k) {
    n = split(words, word, " ")
    for (k = 1; k <= n; k++) kit_same[module "." word[k]] = prelude "." word[k]
}

function tell_kit(    prelude) {
    prelude = "Rattle·std.specs.Prelude"
    kit_words(prelude, "ℕ zero suc", "`ℕ`, `zero`, `suc n`", "a number, which has no bound; 0; n + 1")
    kit_words(prelude, "◌+◌ ◌*◌ min max ◌≤◌ ◌<◌", "`m + n`, `m * n`, `min m n`, `max m n`, `m ≤ n`, `m < n`", "as in arithmetic")
    kit_words(prelude, "◌-◌ ◌/◌ ◌%◌", "`m - n`, `m / n`, `m % n`", \
        "`-` stops at 0, `/` rounds down, `%` is the rest; nothing rests on what the two are by 0")
    kit_words(prelude, "eqb leb ltb", "`eqb m n`, `leb m n`, `ltb m n`", "whether m = n, m ≤ n, m < n")
    kit_words(prelude, "Bool true false not ◌&&◌ ◌||◌", "`Bool`, `true`, `false`, `not b`, `b && c`, `b \\|\\| c`", \
        "true or false; the other of the two; both are true, one of them is")
    kit_words(prelude, "cond", "`cond b x y`", "x where b is true, and else y")
    kit_words(prelude, "List [] ◌∷◌ ◌++◌", "`List A`, `[]`, `x ∷ l`, `l ++ m`", "a list; the empty one; l with x in front; l and then m")
    kit_words(prelude, "length replicate", "`length l`, `replicate n x`", "how many places a list has; a list of n times x")
    kit_words(prelude, "get_or", "`get_or l i x`", "what stands at place i of a list, counted from 0; x from its end on")
    kit_words(prelude, "set", "`set l i x`", "the list with x at place i; the same list from its end on")
    kit_words(prelude, "take drop", "`take n l`, `drop n l`", "the first n places, all where there are fewer; the others")
    kit_words(prelude, "Result Ok Err", "`Result A E`, `Ok a`, `Err e`", "what was asked for, an A, or why there is none, an E; the one; the other")
    kit_words("Prim.Native.String", "String", "`String`", "a text")
    kit_words(prelude, "codes", "`codes s`", "the numbers of the characters of a text, in turn")
    kit_words("Prim.Native.Char", "code", "`code c`", "the number of a character")
    kit_words(prelude, "◌≡◌", "`x ≡ y`", "x is y")
    kit_words(prelude, "◌⊎◌", "`A × B`, `A ⊎ B`, `Unit`, `⊥`", "both are; one of the two is; nothing is said; it cannot be")
    kit_words("Rattle·std.specs.Borrow", "Bor", "`Bor A`, `r.now`", "a reference to an A; what it refers to")
    kit_also(prelude, "Prim.Native.Nat", "ℕ zero suc ◌+◌ ◌*◌ min max ◌≤◌ ◌<◌ ◌-◌ ◌/◌ ◌%◌")
    kit_also(prelude, "lib.Dec", "eqb leb ltb")
    kit_also(prelude, "mathlib.Core.Bool", "Bool true false not ◌&&◌ ◌||◌ cond")
    kit_also(prelude, "mathlib.Core.List", "List [] ◌∷◌ ◌++◌")
    kit_also(prelude, "lib.ListN", "length replicate get_or set take drop")
    kit_also(prelude, "mathlib.Core.Path", "◌≡◌")
    kit_also(prelude, "mathlib.Core.Logic", "◌⊎◌")
}

# ---- What the text of a thing names

function tokens(text, tok) { gsub(/[(){};,@]/, " & ", text); return split(text, tok, " ") }
function is_name(word) { return word != "" && word !~ /^[(){};,@:=.]/ && word != "→" && word != "λ" }

# A name that is bound hides what it would stand for, until the bracket around its binder is closed.
function bind(word, depth) { bound[++top] = word; bound_at[top] = depth; hidden[word]++ }
function unbind(depth) { for (; top > 0 && bound_at[top] >= depth; top--) hidden[bound[top]]-- }

# Whether a word is of something that is bound: that itself, or what is read of it, as `x.f`.
function is_bound(word) { sub(/[.].*/, "", word); return hidden[word] }

# An expression or a type, from token i on. Binders are `λ x y.`, `(x y : A)` and `let x`; `x.f` and `(..).f` are projections, and `f =`
# in braces a label.
function scan(by, tok, i, n,    depth, word, k, lambda) {
    depth = 0
    lambda = -1
    for (; i <= n; i++) {
        word = tok[i]
        if (word ~ /^[({]$/) {
            depth++
            for (k = i + 1; k < n && is_name(tok[k]); k++) ;
            if (tok[k] == ":") for (; i < k - 1; i++) bind(tok[i + 1], depth - 1)
        } else if (word ~ /^[)}]$/) unbind(depth--)
        else if (word ~ /^[;,]$/) unbind(depth > 0 ? depth : 1)
        else if (word == "λ") lambda = depth
        else if (lambda == depth && word ~ /[.]$/) { bind(substr(word, 1, length(word) - 1), depth); lambda = -1 }
        else if (lambda == depth || tok[i - 1] == "let") bind(word, depth)
        else if (is_name(word) && !is_bound(word) && !(tok[i + 1] == "=" && tok[i - 1] ~ /^[{;]$/)) reach(resolve(home[by], word), by)
    }
}

# A clause: on its left a name is a constructor's, or is bound.
function scan_clause(by, tok, n,    i, depth, id) {
    depth = 0
    for (i = 2; i <= n && (tok[i] != "=" || depth > 0); i++) {
        if (tok[i] ~ /^[({]$/) depth++
        else if (tok[i] ~ /^[)}]$/) depth--
        else if (is_name(tok[i])) {
            id = resolve(home[by], tok[i])
            if (as_constructor) reach(id, by)
            else bind(tok[i], 0)
        }
    }
    scan(by, tok, i, n)
}

# The structs and enums in a struct's fields, or in a function's parameters and result; the parameters' names are bound.
function scan_types(by, text,    word, n, k, id) {
    gsub(/[^A-Za-z0-9_:]/, " ", text)
    n = split(text, word, " ")
    for (k = 1; k <= n; k++) {
        if (word[k] ~ /[^:]:$/) bind(substr(word[k], 1, length(word[k]) - 1), 0)
        else if ((id = rust_type(home[by], word[k])) != "") reach(id, by)
        else if (word[k] ~ /::[A-Z][A-Za-z0-9]*[a-z]/) problem(by ": a path to a type that this cannot follow: " word[k])
    }
}

function follow(id,    k, tok, n, at, how, text) {
    n = tokens(given[id], tok)
    scan(id, tok, 1, n)
    for (k = 1; k <= pieces[id]; k++) {
        how = piece_kind[id, k]
        text = piece[id, k]
        if (how == "type" || how == "function") {
            # A clause may have a name of its own, which is nothing that it says.
            at = match(text, / (requires|ensures)[*]?( [a-z0-9_]+)? [{]/)
            scan_types(id, at ? substr(text, 1, at) : text)
            text = at ? substr(text, at) : ""
            gsub(/ (requires|ensures)[*]?( [a-z0-9_]+)? [{]/, " {", text)
            bind("result", 0)
            bind("self", 0)
        }
        n = tokens(text, tok)
        at = top
        if (how == "clause") scan_clause(id, tok, n)
        else if (how == "member") scan(id, tok, tok[1] == "pub" ? 3 : 2, n)
        else scan(id, tok, 1, n)
        # The parameters of a record or a data type stay bound in its members, and a field in those behind it.
        if (how != "head") for (; top > at; top--) hidden[bound[top]]--
        if (how == "member") bind(tok[1] == "pub" ? tok[2] : tok[1], 0)
    }
    unbind(0)
}

# ---- What is come to, group by group

function root(id) { if (!(id in seen)) { seen[id] = 1; queue[++queued] = id } }

# A definition is in the first group that comes to it. One that stands where it should not is followed all the same, so that all
# of them are told.
function reach(id, by,    where) {
    if (id == "" || (id in group)) return
    root(id)
    if (kind[id] == "function") return
    group[id] = now
    if (kind[id] == "type") return
    where = home[id] ~ /\/specs\/Working\// ? "in specs/Working/" : home[id] ~ /^crates\/[^\/]*\/specs\// ? "" : "outside specs/"
    if (where != "") problem(id ": `" name[id] "` stands " where ", and `" name[by] "` (" by ") comes to it")
}

function end_group() { while (followed < queued) follow(queue[++followed]) }

function new_group(title, words) { now = ++groups; title_of[now] = title; words_of[now] = words }

# A module is public where each `mod` on the way to it is.
function is_public(file,    parent, child) {
    if (file ~ /\/src\/lib[.]rt$/) return 1
    parent = child = file
    sub(/\/[^\/]*$/, "", parent)
    sub(/.*\//, "", child)
    sub(/[.]rt$/, "", child)
    parent = parent (parent ~ /^crates\/[^\/]*\/src$/ ? "/lib.rt" : ".rt")
    return ((parent, child) in opened) && is_public(parent)
}

# The public functions of a crate, or its public laws about their promises; answers how many there are.
function root_public(crate, what,    f, n, k, ids, some) {
    if (!(crate in listed_crate)) problem("crates.txt: there is no crate " crate)
    some = 0
    for (f = first_of[crate]; f <= last_of[crate]; f++) {
        if (what == "law" ? file_at[f] !~ /\/proofs\/(Promises|InEveryModel)[.]antt$/ : !is_public(file_at[f])) continue
        load(file_at[f])
        n = split(things[file_at[f]], ids, " ")
        for (k = 1; k <= n; k++) if (kind[ids[k]] == what && public[ids[k]]) { root(ids[k]); some++ }
    }
    return some
}

# The laws that the first table under a heading of docs/PROMISES.md names, as `crate/File`: `law`, `law` in a cell. The worked
# examples are left for their own group.
function root_table(heading,    text, at, where, cell, n, k, tick, m, j, path, some) {
    where = "before"
    for (at = 1; (getline text < promises) > 0; at++) {
        if (where == "before") { if (text == "## " heading) where = "heading"; continue }
        if (text !~ /^[|]/) { if (where == "table" || text ~ /^## /) break; continue }
        if (where == "heading") { where = "names"; continue }
        if (where == "names") { where = "table"; continue }
        some = 0
        n = split(text, cell, "|")
        for (k = 1; k <= n; k++) {
            path = ""
            m = split(cell[k], tick, "`")
            for (j = 2; j < m; j += 2) {
                if (tick[j] ~ /\//) path = tick[j + 1] ~ /^:/ ? tick[j] : ""
                else if (path != "") { some = 1; if (crate_of(path) != "checked_by_hand") root_law(path, tick[j], promises ":" at) }
            }
        }
        if (!some) problem(promises ":" at ": this row names no law as `crate/File`: `law`")
    }
    close(promises)
    if (where != "table") problem(promises ": there is no table under \"" heading "\"")
}

# A law of proofs/; or a statement that is itself a definition of specs/.
function root_law(path, law, place,    crate, file, k) {
    crate = crate_of(path)
    path = substr(path, length(crate) + 1) ".antt"
    for (k = 1; k <= 2; k++) {
        file = "crates/" crate (k == 1 ? "/proofs" : "/specs") path
        if (!(file in listed)) continue
        load(file)
        if (!((file, law) in own)) continue
        if (kind[own[file, law]] == "law") root(own[file, law])
        else reach(own[file, law], own[file, law])
        return
    }
    problem(place ": there is no `" law "` in crates/" crate "/proofs" path ", nor in specs/")
}

# ---- What is amiss

# The `use` lines of code and definitions say what they mean, specs/ holds definitions only, and each of them is come to.
function look_over(file,    n, k, ids) {
    n = split(uses[file], ids, " ")
    for (k = 1; k <= n; k++) cited(file, ids[k])
    if (file !~ /\/specs\//) return
    n = split(things[file], ids, " ")
    for (k = 1; k <= n; k++) {
        if (kind[ids[k]] == "law") problem(ids[k] ": `" name[ids[k]] "` is a law, and specs/ is for definitions only")
        else if (!(ids[k] in group) && file !~ /\/specs\/Working\//)
            problem(ids[k] ": `" name[ids[k]] "` stands in specs/, and no public contract or statement comes to it")
    }
}

# ---- The page

# Counts the definitions of groups `from` to `to`, or the structs and enums; and prints them where `show` is set.
function tell(from, to, types, show,    c, f, n, k, ids, id, file, before) {
    count = lines = in_files = 0
    if (show) print "| File | Line | " (types ? "Struct or enum" : "Definition") " | Lines |\n|---|---|---|---|"
    for (c = 1; c <= crates; c++) for (f = first_of[crate_at[c]]; f <= last_of[crate_at[c]]; f++) {
        before = in_files
        n = split(things[file_at[f]], ids, " ")
        for (k = 1; k <= n; k++) {
            id = ids[k]
            if (!(id in group) || (kind[id] == "type") != types || group[id] < from || group[id] > to) continue
            file = in_files == before ? " [" substr(home[id], length("crates/") + 1) "](../" home[id] ")" : ""
            if (show) print "|" file " | " line_of[id] " | `" name[id] "` | " size[id] " |"
            count++
            lines += size[id]
            in_files = before + 1
        }
    }
}

function sum(words, from, to, types) { tell(from, to, types, 0); print "| " words " | " count " | " lines " | " in_files " |" }

function link(title,    to) { to = tolower(title); gsub(/ /, "-", to); return "[" title "](#" to ")" }

function page(    g) {
    print "# What must be believed\n"
    print "Every definition that a public contract or a public statement comes to. Who has read these, the contracts and the"
    print "statements ([PROMISES.md](PROMISES.md)) knows what is promised; all the rest is checked. `tools/believed` prints this"
    print "page, and the gate fails where the two differ; where a definition is come to that does not stand in `specs/`, outside"
    print "`specs/Working/`; where one that stands there is not come to; and where what must be believed is more than " limit " lines.\n"
    print "A definition is in the first group that comes to it. Its lines are those of its signature and its clauses, fields or"
    print "constructors, without comments and blank lines.\n"
    print "They are written in these words of the toolchain's kit. In a contract `x.old` and `x.new` are what an x that is lent to"
    print "be altered holds before and after the call, `x.now` is what an x that is lent to be read holds, and `result` is what the"
    print "call answers; `t.f` is the field f of t. Of what a struct holds lent, `now` is what it refers to, and `ghost_name` tells"
    print "which it is. (The laws of functions over a struct that holds a reference speak of the kit's program logic besides.)\n"
    print "| In the kit | What it is |\n|---|---|"
    for (g = 1; g <= kit_rows; g++) print kit_line[g]
    print ""
    print "| Group | Definitions | Lines | Files |\n|---|---|---|---|"
    for (g = 1; g <= believed; g++) sum(link(title_of[g]), g, g, 0)
    sum("**All that must be believed**", 1, believed, 0)
    for (; g <= groups; g++) sum(link(title_of[g]), g, g, 0)
    sum(link("Structs and enums"), 1, groups, 1)
    for (g = 1; g <= groups; g++) { print "\n## " title_of[g] "\n\n" words_of[g] "\n"; tell(g, g, 0, 1) }
    print "\n## Structs and enums\n\nThose of the code that the contracts and all these definitions speak of; and of a trait, and of a type with\nit (`BookingRecord`: `Record` for `Booking`), the ghost members.\n"
    tell(1, groups, 1, 1)
}

FILENAME == "crates.txt" {
    if (!sub(/:.*/, "") || /^#/) next
    crate_at[++crates] = $0
    listed_crate[$0] = first_of[$0] = 1
    last_of[$0] = 0
    next
}
{
    file_at[++files] = $0
    listed[$0] = 1
    if (!last_of[crate_of($0)]) first_of[crate_of($0)] = files
    last_of[crate_of($0)] = files
}

END {
    failed = 0
    limit = 650
    promises = "docs/PROMISES.md"
    for (f = 1; f <= files; f++) if (file_at[f] ~ /\/(src|specs)\//) load(file_at[f])
    tell_kit()

    new_group("A run", "What the public contracts of crate `run` come to.")
    root_public("run", "function")
    end_group()
    new_group("Live moves and openings", "What those of `dispatcher`, `live_loop` and `opening` come to beside that.")
    root_public("dispatcher", "function")
    root_public("live_loop", "function")
    root_public("opening", "function")
    end_group()
    new_group("Demand 3", "What the statements of [demand 3](PROMISES.md#demand-3) come to beside that.")
    root_table("Demand 3")
    end_group()
    new_group("The report", "What the public contracts of crate `report` come to beside that.")
    root_public("report", "function")
    end_group()
    new_group("The rest", "What all other public contracts come to beside that.")
    for (c = 1; c <= crates; c++) root_public(crate_at[c], "function")
    end_group()
    believed = groups
    new_group("What laws that are read by themselves speak of", \
        "No contract rests on these: nothing above comes to them. In these words are said the laws that are [read by\n" \
        "themselves](PROMISES.md#laws-that-are-read-by-themselves), and those that each promise allows one outcome and asks\n" \
        "nothing.")
    root_table("Laws that are read by themselves")
    for (c = 1; c <= crates; c++) if (!root_public(crate_at[c], "law") && root_public(crate_at[c], "function"))
        problem("crates/" crate_at[c] "/proofs: there is no law that the promises of this crate allow one outcome")
    end_group()
    new_group("Worked examples", "Nor on these: the examples that were worked out by hand, and what each says of the definitions.")
    root_law("checked_by_hand/ByHand", "all_hold", "tools/believed.awk")
    end_group()

    for (f = 1; f <= files; f++) if (file_at[f] ~ /\/(src|specs)\//) look_over(file_at[f])
    for (word in kit_row) if (!(word in kit_used)) problem("the page tells the kit's `" word "`, which nothing uses")
    tell(1, believed, 0, 0)
    if (lines > limit) problem("what must be believed is " lines " lines, more than " limit)
    page()
    exit failed
}
