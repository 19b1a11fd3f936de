# inlined.awk -v staying=FILE MODULE.ll: which functions of the module are to stand where they are called, one `NAME,alwaysinline` a line, as LLVM's -forceattrs-csv-path
# takes them. FILE gets those of them that are in a cycle of calls even so: one of each cycle stays a function too. tools/archive builds by it, and says why it changes nothing that is
# proved.
#
# The rule, from the calls alone. A function stands where it is called
#   1. if it is in no cycle of calls: the tape and the kinds go into all rules, and so do attributes, modifiers and labels, which mostly do nothing;
#   2. if one place alone calls it: the pieces of a rule go into the rule;
#   3. else if its copies together are short (at most `most` lines of the module), unless it comes back to itself in a cycle that it shares with others of this kind: `expr`,
#      `block`, `condition` and the like, and `path` and `item_use`, which go into nothing but themselves.
# What stays a function is a rule of grammar.rs that goes into itself and into others (outer_expr_with, expr_binary) or is too long to be copied (stmt, pat, expr_with).
# The exported functions stay, whatever they are.
#
# Copies that are added, in lines: 28,525 for the last that is taken (path), 73,884 for the first that is not (stmt). docs/BENCH.md has what other bounds give.
BEGIN { most = 40000 }

# the name behind the @ of a definition or a call
function name_in(text,    rest) {
    rest = substr(text, index(text, "@") + 1)
    if (substr(rest, 1, 1) == "\"") {
        rest = substr(rest, 2)
        return substr(rest, 1, index(rest, "\"") - 1)
    }
    sub(/\(.*/, "", rest)
    return rest
}

/^define / {
    here = name_in($0)
    functions[++count] = here
    exported[here] = $2 != "internal"
    next
}

/^}/ { here = "" }

here != "" { lines[here]++ }

here != "" && / call / && /@/ && !/@llvm\./ {
    callee = name_in($0)
    calls[here, ++calls_of[here]] = callee
    places[callee]++
}

# whether the calls of `from`, and of the functions behind them that are in the list `through`, come to `to`
function comes(from, to, through,    seen) { return comes_on(from, to, through, seen) }

function comes_on(from, to, through, seen,    n, callee) {
    for (n = 1; n <= calls_of[from]; n++) {
        callee = calls[from, n]
        if (callee == to) return 1
        if ((callee in through) && !(callee in seen)) {
            seen[callee]
            if (comes_on(callee, to, through, seen)) return 1
        }
    }
    return 0
}

# its lines, with those of what stands in it by 1 and 2
function length_of(name,    n, sum) {
    if (name in known) return known[name]
    sum = lines[name]
    for (n = 1; n <= calls_of[name]; n++) if (calls[name, n] in settled) sum += length_of(calls[name, n])
    return known[name] = sum
}

# whether no other function that is called at several places is in its cycle
function alone(name,    n) {
    for (n = 1; n <= left; n++)
        if (open[n] != name && comes(name, open[n], all) && comes(open[n], name, all)) return 0
    return 1
}

function print_cycle(name,    n) {
    for (n = 1; n <= count; n++)
        if (comes(name, functions[n], all) && comes(functions[n], name, all)) print functions[n] >staying
}

END {
    for (n = 1; n <= count; n++) all[functions[n]]
    for (n = 1; n <= count; n++) {
        name = functions[n]
        if (exported[name]) continue
        if (places[name] == 1 || !comes(name, name, all)) { settled[name]; inlined[name] }
        else open[++left] = name
    }
    for (n = 1; n <= left; n++) added[open[n]] = length_of(open[n]) * (places[open[n]] - 1)
    # the shortest first, so that the order of the module does not matter
    for (;;) {
        least = ""
        for (n = 1; n <= left; n++)
            if (!(open[n] in tried) && (least == "" || added[open[n]] < added[least])) least = open[n]
        if (least == "") break
        tried[least]
        own = comes(least, least, inlined)
        if (added[least] > most || (own && !alone(least))) continue
        inlined[least]
        if (own) print_cycle(least)
    }
    for (n = 1; n <= count; n++) if (functions[n] in inlined) print functions[n] ",alwaysinline"
}
