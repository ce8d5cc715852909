# The recorded answers in the form of `replay --numbers`: a remark `#= .. num=N` belongs to the call before it, which else answered 0.
function put() {
    if (line) print line, number
    line = 0
}
{ sub(/\r$/, "") }
/^#= / {
    for (i = 2; i <= NF; i++) if ($i ~ /^num=/) number = substr($i, 5)
    if (asks) {
        handed = ""
        if ($2 != "none") for (i = 2; i <= NF; i++) handed = handed " " $i
    }
    next
}
/^#/ { next }
{
    put()
    asks = ($1 == "handed")
}
/^(start|write|poll|release|release_all|bus_reset|gone)( |$)/ {
    line = NR
    number = 0
}
END {
    put()
    print "handed" handed
}
