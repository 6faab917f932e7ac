# The calls that include/samopute.h declares, for client.c (-v side=client) and for server.c (-v side=server). It is the
# one list of them. A parameter's type says what it is: a pointer is to a buffer of as many elements as the parameter
# after it says, lent to be read alone where it is const; an array has its length; all else are numbers.

function fail(why) { print "calls.awk: " name ": " why > "/dev/stderr"; failed = 1; exit 1 }

function lend(buffer, to, count) {
    body = body "    lend(" buffer ", " to ", " count ", sizeof *" buffer ");\n"
    passed = passed ", lent(" slots++ ")"
}

function take(text,    opening, listed, count, parameters, i, p, what, after) {
    opening = index(text, "(")
    split(text, words, /[ (]/)
    name = words[2]
    listed = substr(text, opening + 1, index(text, ")") - opening - 1)
    count = listed == "void" ? 0 : split(listed, parameters, / *, */)
    passed = body = ""
    slots = numbers = 0
    for (i = 1; i <= count; i++) {
        p = what = parameters[i]
        sub(/.*[ *]/, "", what)
        if (p ~ /\[[0-9]+\]$/) {
            sub(/\[.*/, "", what)
            sub(/.*\[/, "", p)
            lend(what, what, p + 0)
        } else if (p ~ /\*/) {
            after = parameters[i + 1]
            if (sub(/^size_t /, "", after) != 1) fail(what " is not followed by its length")
            lend(what, p ~ /^const / ? "NULL" : what, after)
        } else {
            if (p !~ /^(size_t|uint(8|16|32|64)_t) [a-z_]+$/) fail("what is " p)
            body = body "    channel->numbers[" numbers "] = " what ";\n"
            passed = passed ", channel->numbers[" numbers++ "]"
        }
    }
    if (side == "server") {
        print "case " calls ":\n    return " name "(" substr(passed, 3) ");"
    } else {
        print words[1] " " name "(" listed ")\n{"
        print "    _Static_assert(" slots " <= SLOTS && " numbers " <= NUMBERS, \"struct channel is too small\");"
        print "    begin();\n" body "    return (" words[1] ")finish(" calls ");\n}\n"
    }
    calls++
}

/^(uint32_t|size_t) samopute_[a-z0-9_]*\(/ {
    text = $0
    while (text !~ /;/ && (getline line) > 0) text = text " " line
    gsub(/ +/, " ", text)
    calls += 0
    take(text)
}

END { if (!failed && !calls) { print "calls.awk: the header has no calls" > "/dev/stderr"; exit 1 } }
