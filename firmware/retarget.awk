# A module that `rattle build` made for x86-64, as text, for a 32-bit little-endian machine: awk -v layout=.. -v triple=.. -v exports=FILE -f retarget.awk.
# It changes the two target lines, takes out the attributes that name x86-64, gives zeroext to results of 8 and 16 bits, loads a small number and a pointer one by one, and
# takes an address as a number of 32 bits. Every other line must be of a form that is known and means the same on 32 bits; it stops at any other. What is exported goes to the file, a line for each call: its name, its result, its parameters.
function stop(why) {
    print "retarget: " why ": " substr($0, 1, 200) > "/dev/stderr"
    failed = 1
    exit 1
}

BEGIN {
    from_layout = "target datalayout = \"e-m:e-p270:32:32-p271:32:32-p272:64:64-i64:64-i128:128-f80:128-n8:16:32:64-S128\""
    from_triple = "target triple = \"x86_64-unknown-linux-gnu\""
    known_result = "^(void|noundef (i8|i16|i32)|noundef zeroext i1)$"
    known_parameter = "^(ptr|i64|i32|i16|i8|i1)( (noundef|zeroext))* %[A-Za-z0-9_.]+$"
    # A trap stands where the library's code is proved never to come.
    known_helper = "^llvm[.](memcpy|memmove|memset|trap)[.a-z0-9]*$"
    # A pair whose second part begins at the same byte on 32 and 64 bits: of numbers, which are aligned alike, or of a pointer and a number of 64 bits. Functions of the
    # module answer them to one another.
    known_pair = "{ (i(8|16|32|64), i(8|16|32|64)|ptr, i64|i64, ptr) }"
    gsub(/[{}]/, "[&]", known_pair)
    # These and a pair of a small number and a pointer, which lies otherwise in memory but is answered alike.
    known_answer = "{ (i(8|16|32|64), i(8|16|32|64)|ptr, i64|i(8|16|32|64), ptr) }"
    gsub(/[{}]/, "[&]", known_answer)
    mixed_load = "^  %[A-Za-z0-9_.]+ = load { i(8|16|32), ptr }, ptr %[A-Za-z0-9_.]+, align 8$"
    split("store load alloca call getelementptr br zext trunc ret icmp add mul xor sub switch unreachable urem udiv or lshr shl and extractvalue", list, " ")
    for (i in list) known_operation[list[i]] = 1
    split("load call ret extractvalue", list, " ")
    for (i = 1; i <= 4; i++) of_pairs[list[i]] = 1
}

# A header of a function that is exported: its result, its name and its parameters.
function export(    head, result, name, rest, n, parameters, i, line) {
    head = $0
    sub(/^define (dso_local )?/, "", head)
    result = head
    sub(/ @.*/, "", result)
    name = head
    sub(/^[^@]*@/, "", name)
    rest = name
    sub(/\(.*/, "", name)
    sub(/^[^(]*\(/, "", rest)
    sub(/\).*/, "", rest)
    if (result !~ known_result) stop("a result that does not pass alike on 32 and 64 bits")
    line = name " " (result ~ /zeroext i1/ ? "i1" : result ~ /void/ ? "void" : substr(result, 9))
    n = split(rest, parameters, ", ")
    for (i = 1; i <= n; i++) {
        if (parameters[i] !~ known_parameter) stop("a parameter that does not pass alike on 32 and 64 bits")
        sub(/ .*/, "", parameters[i])
        line = line " " parameters[i]
    }
    print line > exports
    sub(/define (dso_local )?noundef i8 /, "define noundef zeroext i8 ")
    sub(/define (dso_local )?noundef i16 /, "define noundef zeroext i16 ")
}

# No types but pointers, numbers of 1 to 64 bits, arrays of bytes and, where they may stand, known pairs; no names of types.
function types(line,    word) {
    gsub(/"[^"]*"/, "", line)
    gsub(/[%@!][A-Za-z0-9_.]+/, "", line)
    gsub(/\[[0-9]+ x i8\]/, "", line)
    if (line ~ /(float|double|half|bfloat|fp128|x86|addrspace|volatile|atomic)/) stop("a form that is not known to mean the same on 32 bits")
    if (line ~ /[<>{}]/) stop("a vector or a struct")
    if (line ~ /\[[0-9]+ x/) stop("an array of something else than bytes")
    while (match(line, /(^|[^A-Za-z0-9_.])i[0-9]+/)) {
        word = substr(line, RSTART, RLENGTH)
        sub(/^[^i]/, "", word)
        if (word !~ /^i(1|8|16|32|64)$/) stop("a number of another width")
        line = substr(line, RSTART + RLENGTH)
    }
}

function operation(    line) {
    line = $0
    sub(/^ +(%[A-Za-z0-9_.]+ = )?/, "", line)
    if (line ~ /^(i8|i16|i32|i64) -?[0-9]+, label %/ || line == "]") return
    sub(/ .*/, "", line)
    if (!(line in known_operation)) stop("an operation that is not known to mean the same on 32 bits")
    if (line == "call" && $0 !~ /call [^@%]*@("[^"]*"|[A-Za-z0-9_.]+)\(/) stop("a call through a pointer")
    if (line == "extractvalue" && $0 !~ "= extractvalue " known_answer " %[A-Za-z0-9_.]+, [01]$") stop("a part of something else than a known pair")
    types(line in of_pairs ? without_pair(line, line == "load" ? known_pair : known_answer) : $0)
}

# The line without the pair that the operation, or the definition, begins with.
function without_pair(start, pair,    line) {
    line = $0
    sub(start "( noundef)? " pair, start, line)
    return line
}

# The load of a small number and a pointer as the loads of its parts, from where they lie on x86-64: the pointer at byte 8.
function load_parts(    part, from, number) {
    split($0, part, " ")
    sub(/,$/, "", part[9])
    number = part[5]
    sub(/,$/, "", number)
    from = part[9]
    print "  " part[1] ".number = load " number ", ptr " from ", align 8"
    print "  " part[1] ".at = getelementptr i8, ptr " from ", i64 8"
    print "  " part[1] ".pointer = load ptr, ptr " part[1] ".at, align 8"
    print "  " part[1] ".half = insertvalue { " number ", ptr } poison, " number " " part[1] ".number, 0"
    print "  " part[1] " = insertvalue { " number ", ptr } " part[1] ".half, ptr " part[1] ".pointer, 1"
}

/^target datalayout = / {
    if ($0 != from_layout) stop("another data layout than that of x86-64")
    print "target datalayout = \"" layout "\""
    targets++
    next
}
/^target triple = / {
    if ($0 != from_triple) stop("another machine than x86-64")
    print "target triple = \"" triple "\""
    targets++
    next
}
/^attributes #/ {
    gsub(/ "target-cpu"="x86-64-v2"/, "")
    gsub(/ "probe-stack"="inline-asm"/, "")
    gsub(/ "stack-probe-size"="3072"/, "")
    if ($0 ~ /"[^"]*"=/) stop("an attribute that may name a machine")
    print
    next
}
/^declare / {
    helper = $0
    sub(/^[^@]*@/, "", helper)
    sub(/\(.*/, "", helper)
    if (helper !~ known_helper) stop("a function from elsewhere")
    print
    next
}
/^define / {
    if (!/^define internal /) export()
    line = without_pair("define internal", known_answer)
    sub(/ #[0-9]+ \{$/, "", line)
    types(line)
    print
    next
}
# An address, widened: what is made of it, a distance or an order, is the same.
/^  %[A-Za-z0-9_.]+ = ptrtoaddr ptr %[A-Za-z0-9_.]+ to i64$/ {
    print "  " $1 ".address = ptrtoaddr ptr " $5 " to i32"
    print "  " $1 " = zext i32 " $1 ".address to i64"
    next
}
$0 ~ mixed_load {
    load_parts()
    next
}
/^  / {
    operation()
    print
    next
}
/^$/ || /^;/ || /^source_filename = / || /^[A-Za-z0-9_.]+:/ || /^}$/ || /^![A-Za-z0-9_.]+ = / {
    print
    next
}
{ stop("a line of a form that is not known") }

END {
    if (failed) exit 1
    if (targets != 2) {
        print "retarget: the module does not name its machine" > "/dev/stderr"
        exit 1
    }
}
