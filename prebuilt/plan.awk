# What crates.txt says of the crates that the program is made of, by `-v ask=`:
#
#   crates    those that sf stands on, and sf itself, in the order of crates.txt
#   lines     their lines of crates.txt
#   next      the first of them that can be begun now: `done` and `running` name those that are built, and being built
#
# rt locks a crate and all crates below it while it builds. So two crates that share one are built in turn, and a crate
# is begun only where rt wouldn't have to wait. A list of names has a blank on both sides of each.

{ line = $0; sub(/#.*/, "") }

/[^ \t]/ {
    name = $1
    sub(/:.*/, "", name)
    names[++count] = name
    lines[name] = line
    uses[name] = index($0, ":") ? substr($0, index($0, ":") + 1) : ""
}

function has(list, name) { return index(list, " " name " ") }

# Both lists as one.
function joined(list, more,   words, n, i) {
    n = split(more, words)
    for (i = 1; i <= n; i++) if (!has(list, words[i])) list = list words[i] " "
    return list
}

# The crate and those below it.
function reached(name,   words, n, i) {
    if (name in known) return known[name]
    known[name] = " " name " "
    n = split(uses[name], words)
    for (i = 1; i <= n; i++) if (words[i] in uses) known[name] = joined(known[name], reached(words[i]))
    return known[name]
}

# Whether all crates below it are built, and no crate that is being built has a lock on one of them.
function may_begin(name, locked,   words, n, i) {
    n = split(reached(name), words)
    for (i = 1; i <= n; i++) if (has(locked, words[i]) || words[i] != name && !has(done, words[i])) return 0
    return !has(done, name)
}

function next_crate(   words, n, i, locked) {
    locked = " "
    n = split(running, words)
    for (i = 1; i <= n; i++) locked = joined(locked, reached(words[i]))
    for (i = 1; i <= count; i++) if (has(reached("sf"), names[i]) && may_begin(names[i], locked)) return names[i]
    return ""
}

END {
    done = " " done " "
    running = " " running " "
    if (ask == "next") {
        print next_crate()
        exit
    }
    for (i = 1; i <= count; i++) if (has(reached("sf"), names[i])) print ask == "lines" ? lines[names[i]] : names[i]
}
