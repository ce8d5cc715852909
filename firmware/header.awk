# The calls that include/vwrite.h declares: a line for each, its name, its result, its parameters. With -v kinds=1 in the form of retarget.awk, in which a type is how it passes; else in
# that of signatures.awk, in which it is the C type.
function kind(type) {
    if (type ~ /\*/) return "ptr"
    sub(/^const /, "", type)
    if (type in passes) return passes[type]
    print "header: " type " is no type of a parameter or a result that is the same on every machine" > "/dev/stderr"
    failed = 1
    return "?"
}

# A declaration of a parameter without its name.
function type_of(parameter) {
    gsub(/^ +| +$/, "", parameter)
    sub(/[A-Za-z0-9_]+$/, "", parameter)
    gsub(/ +\*/, "*", parameter)
    sub(/ +$/, "", parameter)
    return parameter
}

BEGIN {
    split("bool i1 uint8_t i8 uint16_t i16 uint32_t i32 uint64_t i64 vwrite_len i64 void void", pairs, " ")
    for (i = 1; i in pairs; i += 2) passes[pairs[i]] = pairs[i + 1]
}
{ sub(/\r$/, "") }
/^#/ || continued { continued = /\\$/; next }
{ text = text " " $0 }

END {
    while ((at = index(text, "/*")) > 0) text = substr(text, 1, at - 1) " " substr(text, at + index(substr(text, at), "*/") + 1)
    n = split(text, pieces, ";")
    for (i = 1; i <= n; i++) {
        piece = pieces[i]
        if (!match(piece, /[a-z0-9_]+ v[a-z0-9_]+\([^()]*\) *$/)) continue
        piece = substr(piece, RSTART, RLENGTH)
        name = piece
        sub(/\(.*/, "", name)
        result = name
        sub(/ .*/, "", result)
        sub(/.* /, "", name)
        sub(/^[^(]*\(/, "", piece)
        sub(/\) *$/, "", piece)
        line = name " " (kinds ? kind(result) : result)
        m = split(piece, parameters, ",")
        list = ""
        for (j = 1; j <= m; j++) {
            type = type_of(parameters[j])
            list = list (list == "" ? "" : kinds ? " " : ",") (kinds ? kind(type) : type)
        }
        print line " " list
    }
    exit failed
}
