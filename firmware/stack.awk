# The deepest stack of each exported call of one compiled module: awk -f stack.awk MODULE.su MODULE.s. The sizes of frames are the compiler's (-fstack-usage), who calls
# whom is read off the assembly of a Cortex-M. A function that calls itself, by others too, or through a pointer has no bound: that is an error.
function stop(why) {
    print "stack: " why > "/dev/stderr"
    failed = 1
    exit 1
}

# Below memcpy and its like, which the firmware's C library supplies, so much is allowed for.
BEGIN { HELPER = 64 }

function deepest(name,    i, n, called, below, most) {
    if (name in bound) return bound[name]
    if (!(name in frame)) {
        if (name !~ /^__aeabi_(memcpy|memmove|memset|memclr)[48]?$/) stop(name " is not of the module, and no helper that is known")
        return HELPER
    }
    if (name in open) stop(name " calls itself")
    open[name] = 1
    most = 0
    n = split(calls[name], called, SUBSEP)
    for (i = 2; i <= n; i++) {
        below = deepest(called[i])
        if (below > most) most = below
    }
    delete open[name]
    bound[name] = frame[name] + most
    return bound[name]
}

# FILE:FUNCTION, the bytes, static: names of functions have colons too.
FILENAME ~ /[.]su$/ {
    n = split($0, fields, "\t")
    if (n != 3 || fields[3] != "static") stop("a frame whose size is not known: " $0)
    sub(/^[^:]*[.]ll:/, "", fields[1])
    frame[fields[1]] = fields[2]
    next
}
/^"?[A-Za-z_][^ \t]*:/ && !/^[.]L/ {
    at = $0
    sub(/:[ \t]*(@.*)?$/, "", at)
    gsub(/"/, "", at)
    next
}
/^\t[.]globl\t/ { gsub(/"/, "", $2); exported[$2] = 1 }
/^\tbl?(eq|ne|cs|hs|cc|lo|mi|pl|vs|vc|hi|ls|ge|lt|gt|le)?([.][wn])?\t/ && !/\t[.]L/ {
    called = $0
    sub(/^\t[a-z.]+\t/, "", called)
    sub(/[ \t]*@.*/, "", called)
    gsub(/"/, "", called)
    calls[at] = calls[at] SUBSEP called
    next
}
/^\t(blx|bxj|tbb|tbh)/ && !/^\ttb[bh]\t\[pc/ { stop(at " calls or jumps through a pointer:" $0) }
/^\tbx/ && !/^\tbx[a-z]*\tlr/ { stop(at " jumps through a pointer:" $0) }
/^\t(ldr|mov|add|sub|adr)[a-z.]*\tpc/ { stop(at " jumps through a pointer:" $0) }

END {
    if (failed) exit 1
    for (name in exported) print name, deepest(name)
    if (failed) exit 1
}
