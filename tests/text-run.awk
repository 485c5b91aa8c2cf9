# The loops of a table's text, one after the other, on a memory in which every element is its own index within its array. Prints the last array as
# far as its twelfth element, and then how many elements and iterations there are. An iteration runs its loop's statements in order. Bodies are in
# postfix; operations are those of binary64.
function split_reference(word) {
    name = offset = word
    sub(/\[.*/, "", name)
    gsub(/^[^[]*\[i|\].*/, "", offset)
}
function apply(sign,    right) {
    if (sign == "neg") { stack[top] = -stack[top]; return }
    right = stack[top--]
    if (sign == "+") stack[top] += right
    if (sign == "-") stack[top] -= right
    if (sign == "*") stack[top] *= right
    if (sign == "/") stack[top] /= right
}
function body(k, s, i,    n, word, at) {
    top = 0
    n = split(items[k, s], word, " ")
    for (at = 1; at <= n; at++)
        if (word[at] ~ /\[/) { split_reference(word[at]); stack[++top] = memory[name, i + offset] }
        else if (word[at] ~ /^[0-9]+$/) stack[++top] = word[at] + 0
        else apply(word[at])
    return stack[1]
}
{ sub(/#.*/, "") }
$1 == "array" { last = $2; length_of[$2] = $3; elements += $3; for (i = 0; i < $3; i++) memory[$2, i] = i; next }
$1 == "loop" { loops++; from[loops] = $2; to[loops] = $3; sub(/^[^>]*>/, "->") }
$1 == "->" { statements[loops]++; stores[loops, statements[loops]] = $2; sub(/^[^:]*:/, "") }
{ items[loops, statements[loops]] = items[loops, statements[loops]] " " $0 }
function iterate(k, i,    s, value) {
    for (s = 1; s <= statements[k]; s++) {
        value = body(k, s, i)
        split_reference(stores[k, s])
        memory[name, i + offset] = value
    }
}
END {
    for (k = 1; k <= loops; k++)
        for (i = from[k]; i <= to[k]; i++) {
            iterations++
            iterate(k, i)
        }
    line = "last array:"
    for (i = 0; i < length_of[last] && i < 12; i++) line = line sprintf(" %.3f", memory[last, i])
    print line
    print elements, iterations
}
