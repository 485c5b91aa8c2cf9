# awk -f from-text.awk TEXT: the builder calls of a text for `vempaldi make`.
BEGIN { split("+ - * / neg", names); for (k = 1; k <= 5; k++) code[names[k]] = k }

{ sub(/#.*/, ""); sub(/:/, " ") }
$1 == "array" { print "array", $3; number[$2] = arrays++; next }
$1 == "loop" { print "loop", $2, $3, reference($5); items(6); next }
$1 == "->" { print "statement", reference($2); items(3); next }
{ items(1) }
END { print "end" }

function items(from,    at) {
    for (at = from; at <= NF; at++) {
        if ($at in code) print "operation", code[$at]
        else if ($at ~ /^[0-9]+$/) print "constant", $at
        else print "read", reference($at)
    }
}

# NAME[i+3] as the array's number and the offset.
function reference(word,    name, offset) {
    name = word
    sub(/\[.*/, "", name)
    offset = word
    sub(/^.*\[i\+?/, "", offset)
    sub(/\]$/, "", offset)
    return number[name] " " (offset == "" ? 0 : offset)
}
