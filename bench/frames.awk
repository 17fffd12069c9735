# The deepest stack of each exported function's whole call tree, from what `objdump -dr` prints of an archive: frames, return
# addresses (x86-64 puts them on the stack, Arm into a register) and what is used below the stack pointer, added up along the
# deepest path. Each function is walked along its jumps, so that a depth is known at each instruction. What cannot be told so
# (a jump or a call through a register or through memory, a stack pointer that is computed, a function that calls itself) is
# said, and the status is 1.
#   awk -v machine=x86_64|aarch64 -v exported=NAMES -f frames.awk
# A row has the function's name, its depth, and each function on the way with what it adds to the depth, its return address
# included; "outside" names functions of other libraries on any way, whose own stack is not counted.

function hex(s,    n, i) {
    sub(/^0x/, "", s)
    for (i = 1; i <= length(s); i++)
        n = n * 16 + index("0123456789abcdef", substr(s, i, 1)) - 1
    return n
}

# An operand of 64 bits, which may be below 0.
function signed(s) {
    if (s ~ /^-/)
        return -hex(substr(s, 2))
    sub(/^0x/, "", s)
    return length(s) == 16 && s ~ /^f/ ? hex(substr(s, 9)) - 4294967296 : hex(s)
}

function unknown(f, what) {
    print "frames: " f ": " what > "/dev/stderr"
    bad = 1
}

# ---- reading

/^Disassembly of section / {
    section = $4
    sub(/:$/, "", section)
}

/^[0-9a-f]+ <.*>:$/ {
    heading = $2
    gsub(/^<|>:$/, "", heading)
    if (heading ~ /^\.L/)
        next # a label within a function
    name = heading
    if (name in first || (section, hex($1)) in placed)
        unknown(name, "its name or its place occurs twice")
    placed[section, hex($1)] = name
    first[name] = last[name] = total + 1
    next
}

# A relocation: what the call or the jump before it goes to, by a function's name or by a place in a section. On x86-64 the place is
# counted from behind the four bytes that it is put into.
/^[ \t]+[0-9a-f]+: R_/ {
    more = ""
    to = $3
    if (match(to, /[-+]0x[0-9a-f]+$/)) {
        more = substr(to, RSTART)
        to = substr(to, 1, RSTART - 1)
    }
    sub(/^[+]/, "", more)
    target[total] = to
    beyond[total] = signed(more) + (machine == "x86_64" ? 4 : 0)
    next
}

/^ *[0-9a-f]+:\t/ {
    total++
    place = words = $0
    sub(/:.*/, "", place)
    gsub(/ /, "", place)
    sub(/^[^\t]*\t/, "", words)
    gsub(/\t/, " ", words)
    if (words ~ /<[^+]*>$/ && words !~ /<\.L[^>]*>$/) { # a place with a function's name
        target[total] = words
        sub(/.*</, "", target[total])
        sub(/>$/, "", target[total])
        beyond[total] = 0
    }
    sub(/ *<.*$/, "", words)
    sub(machine == "x86_64" ? " *#.*$" : " *//.*$", "", words) # a comment
    gsub(/ +/, " ", words)
    sub(/ $/, "", words)
    code[total] = words
    at[name, place] = total
    last[name] = total
}

# ---- one instruction, i, of function f

# How far it moves the stack pointer down.
function moved(f, i) { return machine == "x86_64" ? moved_x86(f, code[i]) : moved_arm(f, code[i]) }

function moved_x86(f, s,    way) {
    if (s ~ /^push/)
        return 8
    if (s ~ /^pop/ && s !~ /%rsp/)
        return -8
    way = s ~ /^sub/ ? 1 : -1
    if (s ~ /^(sub|add) \$(0x)?[0-9a-f]+,%rsp$/) {
        gsub(/^[a-z]+ \$|,.*/, "", s)
        return way * signed(s)
    }
    if (s ~ /^lea -?0x[0-9a-f]+\(%rsp\),%rsp$/) {
        gsub(/^lea |\(.*/, "", s)
        return -signed(s)
    }
    if ((s ~ /%[er]?sp$/ && s !~ /^(cmp|test|push)/) || s ~ /^(leave|enter)/)
        unknown(f, "the stack pointer is computed: " s)
    return 0
}

function moved_arm(f, s,    way, scale) {
    if (s ~ /\[sp, #-?[0-9]+\]!/ || s ~ /\[sp\], #-?[0-9]+$/) {
        sub(/.*\[sp(\])?, #/, "", s)
        return -(s + 0)
    }
    way = s ~ /^sub/ ? 1 : -1
    scale = s ~ /lsl #12$/ ? 4096 : 1
    if (s ~ /^(sub|add) sp, sp, #0x[0-9a-f]+(, lsl #12)?$/) {
        sub(/.*sp, #0x/, "", s)
        sub(/,.*/, "", s)
        return way * scale * hex(s)
    }
    if (s ~ /^[a-z]+ sp,/ || s ~ /\[sp\], / || s ~ /\[sp, [^#].*\]!/ || s ~ /^sub [a-z0-9]+, sp,/)
        unknown(f, "the stack pointer is computed: " s)
    return 0
}

# How deep it reaches by itself, at a depth: through the stack pointer or, once that is copied there, through the frame pointer.
function reach(i, depth,    s, at_frame) {
    s = code[i]
    at_frame = depth
    if (machine == "x86_64") {
        if (s == "mov %rsp,%rbp")
            frame = depth
        if (!match(s, /-0x[0-9a-f]+\(%(rsp|rbp)/))
            return depth
        if (s ~ /-0x[0-9a-f]+\(%rbp/)
            at_frame = frame
        return at_frame == "" ? depth : at_frame + hex(substr(s, RSTART + 1, RLENGTH - 6))
    }
    if (s ~ /^(mov x29, sp|add x29, sp, #0x[0-9a-f]+)$/) {
        frame = depth
        if (sub(/.*#/, "", s))
            frame -= hex(s)
        return depth
    }
    if (s ~ /\]!$/ || !match(s, /\[(sp|x29), #-[0-9]+\]/))
        return depth
    if (s ~ /\[x29/)
        at_frame = frame
    sub(/.*\[(sp|x29), #-/, "", s)
    return at_frame == "" ? depth : at_frame + s
}

# The place that it may jump to in its own function, or "".
function jump(i,    s) {
    s = code[i]
    if (machine == "x86_64" ? s !~ /^(notrack )?(j|loop)/ : s !~ /^(b|b\.[a-z]+|cbn?z|tbn?z) /)
        return ""
    sub(/^.* /, "", s)
    return s
}

function is_call(i) { return code[i] ~ (machine == "x86_64" ? "^(notrack )?call" : "^bl") }
function is_return(i) { return code[i] ~ (machine == "x86_64" ? "^(repz? )?ret" : "^ret") }
function is_last(i) { return is_return(i) || code[i] ~ (machine == "x86_64" ? "^((notrack )?jmp|ud2|hlt)" : "^(b |udf|brk)") }

# A call or a jump whose target stands in a register or in memory.
function is_hidden(i) { return code[i] ~ (machine == "x86_64" ? "^(notrack )?(call|j[a-z]+) \\*" : "^(blr|br)(a[ab]z?)? ") }

# The function that it calls or jumps to, or "".
function callee(i) {
    if (!(i in target))
        return ""
    if ((target[i], beyond[i]) in placed)
        return placed[target[i], beyond[i]]
    return target[i] ~ /^\./ ? "" : target[i]
}

# ---- one function

# One way to go on: from instruction i, at that depth.
function go(f, i, depth) {
    if (i in reached) {
        if (reached[i] != depth)
            unknown(f, "two depths at: " code[i])
        return
    }
    reached[i] = depth
    todo[++waiting] = i
}

# A call or a tail jump of another function at a depth.
function goes_to(f, other, depth) {
    way[f, ++ways[f]] = other
    way_depth[f, ways[f]] = depth
}

# Where instruction i goes other than to the next one.
function leaves(f, i, depth,    to, other) {
    to = jump(i)
    other = callee(i)
    if (is_hidden(i) || (is_call(i) && other == ""))
        unknown(f, "it goes to a place that is not named: " code[i])
    else if (is_call(i))
        goes_to(f, other, depth)
    else if (to != "" && other != "" && other != f)
        goes_to(f, other, depth - pushed)
    else if (to != "" && ((f, to) in at))
        go(f, at[f, to], depth)
    else if (to != "")
        unknown(f, "it jumps to a place that is not its own: " code[i])
    if ((is_return(i) || (to != "" && other != "" && other != f)) && depth != 0)
        unknown(f, "it leaves at a depth of " depth ": " code[i])
}

function walk(f,    i, depth) {
    waiting = 0
    frame = ""
    split("", reached)
    go(f, first[f], 0)
    while (waiting > 0) {
        i = todo[waiting--]
        depth = reached[i]
        if (reach(i, depth) > own[f])
            own[f] = reach(i, depth)
        depth += moved(f, i)
        if (depth > own[f])
            own[f] = depth
        leaves(f, i, depth)
        if (!is_last(i) && i == last[f] && !is_call(i))
            unknown(f, "it runs past its end")
        if (!is_last(i) && i < last[f])
            go(f, i + 1, depth)
    }
}

# ---- all of them

# Adds names to those of other libraries that f calls, itself or further down.
function also_outside(f, names,    i, n, list) {
    n = split(names, list, " ")
    for (i = 1; i <= n; i++)
        if (index(" " outside[f] " ", " " list[i] " ") == 0)
            outside[f] = outside[f] (outside[f] == "" ? "" : " ") list[i]
}

# The deepest stack below the call of f, its return address included.
function deepest(f,    i, d, most, other) {
    if (f in depth_of)
        return depth_of[f]
    if (!(f in first)) {
        path_of[f] = f
        return depth_of[f] = pushed
    }
    if (open[f]) {
        unknown(f, "it calls itself")
        return 0
    }
    open[f] = 1
    walk(f)
    most = own[f]
    path_of[f] = f " " (own[f] + pushed)
    for (i = 1; i <= ways[f]; i++) {
        other = way[f, i]
        d = way_depth[f, i] + deepest(other)
        also_outside(f, other in first ? outside[other] : other)
        if (d > most) {
            most = d
            path_of[f] = f " " (way_depth[f, i] + pushed) ", " path_of[other]
        }
    }
    open[f] = 0
    return depth_of[f] = most + pushed
}

END {
    pushed = machine == "x86_64" ? 8 : 0
    count = split(exported, names, " ")
    for (k = 1; k <= count; k++) {
        f = names[k]
        if (!(f in first)) {
            unknown(f, "it is not in the archive")
            continue
        }
        d = deepest(f)
        more = outside[f] == "" ? "" : "; outside: " outside[f]
        printf "| %s | %d | %s%s |\n", f, d, path_of[f], more
    }
    exit bad
}
