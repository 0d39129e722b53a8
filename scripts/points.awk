# The points of a well-formed outline: prints `pre LINE`, `crash LINE`, for each point `point T.P LINE LINE` with the line of its
# assertion and of its statement, and for each step `step STEP T.P` with the point that it leads to.
BEGIN { depth = 0 }
{
    sub(/#.*/, "")
    while (match($0, /[a-z][a-z0-9_]*|[0-9]+|[^ \t\r]/)) {
        token(substr($0, RSTART, RLENGTH))
        $0 = substr($0, RSTART + RLENGTH)
    }
}

# Outside threads `what` is the declaration or "thread"; within, it is what is awaited: "note", "end of note", "act", "end of act"
# or "block".
function token(word) {
    if (depth == 0)
        declaration(word)
    else if (what == "end of note") {
        if (word == "]") what = "act"
    } else if (what == "end of act") {
        if (word == ";") { wait(depth, point); what = "note" }
    } else if (what == "block") {
        if (word == "{") open(kind)
    } else
        part(word)
}

function declaration(word) {
    if (what == "thread") {
        if (word == "{") { point = 0; open("thread") } else thread = word
    } else if (word == "thread")
        what = "thread"
    else if ((word == "pre" || word == "crash") && what == "")
        print word, NR
    if (what != "thread" && depth == 0) what = word == ";" ? "" : "declaration"
}

# The first token of a note, of a statement, or of what follows a block.
function part(word) {
    if (closed && word == "else") { closed = 0; kind = "else"; what = "block"; return }
    if (closed) { wait(depth, behind[depth + 1]); wait(depth, owner[depth + 1] "f"); closed = 0 }
    if (word == "[") { begin_point(); what = "end of note" }
    else if (word == "}") close_block()
    else begin_act(word)
}

function begin_point(    i, n, steps) {
    end_point(0)
    point++
    note = NR
    n = split(waiting[depth], steps, " ")
    for (i = 1; i <= n; i++) print "step", thread "." steps[i], thread "." point
    waiting[depth] = ""
}

# Prints the point that was begun, where there is one, with the line of its statement.
function end_point(line) {
    if (note) print "point", thread "." point, note, line ? line : note
    note = 0
}

function begin_act(word) {
    end_point(NR)
    if (word == "if" || word == "while") { kind = word; what = "block" } else what = "end of act"
}

# Lets steps wait, in the block at a depth, for the next point of that block.
function wait(at, steps) {
    if (steps != "") waiting[at] = waiting[at] " " steps
}

function open(block) {
    depth++
    opened[depth] = block
    if (block != "else") owner[depth] = point
    waiting[depth] = block == "thread" ? "" : block == "else" ? owner[depth] "f" : point "t"
    what = "note"
}

function close_block(    block, i, n, steps) {
    end_point(0)
    block = opened[depth]
    if (block == "if") { behind[depth] = waiting[depth]; closed = 1 }
    else if (block == "else") wait(depth - 1, behind[depth] " " waiting[depth])
    else if (block == "while") {
        n = split(waiting[depth], steps, " ")
        for (i = 1; i <= n; i++) print "step", thread "." steps[i], thread "." owner[depth]
        wait(depth - 1, owner[depth] "f")
    }
    depth--
    what = depth ? "note" : ""
}
