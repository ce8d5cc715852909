# The exported calls of the Rattle sources, as the header must declare them: a line for each, its name, its result, its parameters. A slice is a pointer and a length.
function stop(what) {
    print "signatures: " what > "/dev/stderr"
    failed = 1
    exit 1
}

BEGIN {
    split("u8 uint8_t u16 uint16_t u32 uint32_t u64 uint64_t usize vwrite_len bool bool W vwrite_state VF vwrite_file OwnRow vwrite_own End vwrite_end " \
        "Handed vwrite_handed Reason vwrite_reason", pairs, " ")
    for (i = 1; i in pairs; i += 2) names[pairs[i]] = pairs[i + 1]
}

function plain(type) {
    if (!(type in names)) stop("no C type is known for " type)
    return names[type]
}

function c_type(type,    constant, inner) {
    gsub(/^ +| +$/, "", type)
    if (type !~ /^&/) return plain(type)
    constant = type ~ /^&mut / ? "" : "const "
    sub(/^&(mut )?/, "", type)
    if (type ~ /^\[[A-Za-z0-9]+\]$/) return constant plain(substr(type, 2, length(type) - 2)) "*,vwrite_len"
    if (type ~ /^\[[A-Za-z0-9]+; [A-Z0-9]+\]$/) {
        inner = type
        sub(/^\[/, "", inner)
        sub(/;.*/, "", inner)
        return constant plain(inner) "*"
    }
    return constant plain(type) "*"
}

/^#\[unsafe\(no_mangle\)\]/ { exported = 1; next }
exported { text = text " " $0 }
exported && /ensures/ {
    if (!match(text, /pub extern "C" fn [a-z0-9_]+\([^)]*\)( -> [a-z0-9]+)?/)) stop("an export of a form that is not known:" text)
    text = substr(text, RSTART, RLENGTH)
    result = text ~ / -> / ? text : ""
    sub(/.* -> /, "", result)
    name = text
    sub(/^pub extern "C" fn /, "", name)
    rest = name
    sub(/\(.*/, "", name)
    sub(/^[^(]*\(/, "", rest)
    sub(/\).*/, "", rest)
    line = name " " (result == "" ? "void" : plain(result))
    n = split(rest, parameters, ",")
    list = ""
    for (i = 1; i <= n; i++) {
        if (parameters[i] !~ /:/) continue
        sub(/^[^:]*:/, "", parameters[i])
        list = list (list == "" ? "" : ",") c_type(parameters[i])
    }
    print line " " list
    exported = 0
    text = ""
}
END { if (failed) exit 1 }
