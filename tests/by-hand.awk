# A plan by hand in place of a table's own shifts and peels:
#
#     awk -v plan="SHIFT PEEL .." -f tests/by-hand.awk LISTING TEXT
#
# LISTING is the table's own plan for one processor, of which the sweeps are taken; TEXT is the table's text, which has bounds and references.
# Prints the lines `loop` with the plan's numbers and the line `sweeps`, which tests/lines.awk takes for its LISTING; or the line of the refusal,
# worked out here as docs/TABLE.md says it: `refused 19 0`, or `refused 20` with the earlier and the later loop.
function max(one, other) { return one > other ? one : other }
function min(one, other) { return one < other ? one : other }

function refuse(numbers) {
    refused = 1
    print "refused " numbers
    exit
}

# A reference of loop k: its array, its offset, and whether it is a destination.
function refer(k, word, stored) {
    stores[k, count[k] + 0] = stored
    array[k, count[k] + 0] = word
    sub(/\[.*/, "", array[k, count[k] + 0])
    offset[k, count[k] + 0] = word
    gsub(/^[^[]*\[i|\].*/, "", offset[k, count[k] + 0])
    offset[k, count[k]++ + 0] += 0
}

# Whether some iteration i of loop j and i + d of loop k are both inside their bounds.
function meet(j, k, d) { return max(first[j], first[k] - d) <= min(last[j], last[k] - d) }

# Whether the dependence between two references of loops j and k, if it is one, is met.
function met(j, m, k, n, d) {
    if (array[j, m] != array[k, n] || (!stores[j, m] && !stores[k, n])) return 1
    d = offset[j, m] - offset[k, n]
    return !meet(j, k, d) || (shift[k] >= shift[j] + max(0, -d) && peel[k] >= peel[j] + max(0, d))
}

function all_met(j, k, m, n) {
    for (m = 0; m < count[j]; m++)
        for (n = 0; n < count[k]; n++)
            if (!met(j, m, k, n)) return 0
    return 1
}

FILENAME == ARGV[1] && $1 == "sweeps" { sweeps = $0 }
FILENAME == ARGV[1] { next }
{ sub(/#.*/, "") }
$1 == "loop" { first[loops + 0] = $2 + 0; last[loops++ + 0] = $3 + 0 }
loops { for (at = 1; at <= NF; at++) if ($at ~ /\[/) refer(loops - 1, $at, at > 1 && $(at - 1) == "->") }

END {
    if (refused) exit
    numbers = split(plan, value, " ")
    if (numbers != 2 * loops) refuse("19 0")
    for (at = 1; at <= numbers; at++) if (value[at] > 10000) refuse("19 0")
    for (k = 0; k < loops; k++) { shift[k] = value[2 * k + 1] + 0; peel[k] = value[2 * k + 2] + 0 }
    for (j = 0; j < loops; j++)
        for (k = j + 1; k < loops; k++)
            if (!all_met(j, k)) refuse("20 " j " " k)
    for (k = 0; k < loops; k++) print "loop", k, shift[k], peel[k]
    print sweeps
}
