# The listing of a plan whose blocks begin on whole lines, or the line of its refusal:
#
#     awk -v processors=P -v line=W -f tests/lines.awk LISTING TEXT
#
# LISTING is the plan for one processor, which has the shifts, the peels and the sweeps; TEXT is the table's text, which has the loops' bounds.
# What depends on P and W is worked out here, as docs/TABLE.md says it: 10, 17 and 11, the blocks, and what each processor has of each loop.
function max(one, other) { return one > other ? one : other }
function min(one, other) { return one < other ? one : other }

function refuse(ground) {
    print "refused " ground " 0"
    exit
}

function part(word, b, k, from, to) {
    if (from <= to) print word, b, k, from, to
}

# Lines are dealt out in order, the first blocks having one more; the last block ends at the greatest last.
function deal(lines, b, next_one, count) {
    next_one = least
    for (b = 0; b < processors; b++) {
        count = int(lines / processors) + (b < lines % processors)
        begin[b] = next_one
        end[b] = b < processors - 1 ? next_one + line * count - 1 : greatest
        next_one = end[b] + 1
        if (processors > 1 && end[b] - begin[b] + 1 < threshold) refuse(11)
    }
}

FILENAME == ARGV[1] && $1 == "loop" { shift[$2] = $3; peel[$2] = $4; threshold = max(threshold + 0, $3 + $4) }
FILENAME == ARGV[1] && $1 == "sweeps" { sweeps = $0 }
FILENAME == ARGV[1] { next }
$1 == "loop" {
    least = loops ? min(least, $2 + 0) : $2 + 0
    greatest = max(greatest + 0, $3 + 0)
    first[loops + 0] = $2
    last[loops++ + 0] = $3
}

END {
    if (processors < 1 || processors > 64) refuse(10)
    if (line < 1 || line > 64) refuse(17)
    lines = int((greatest - least + line) / line)
    if (lines < processors) refuse(11)
    deal(lines)
    for (k = 0; k < loops; k++) print "loop", k, shift[k], peel[k]
    for (b = 0; b < processors; b++) print "block", b, begin[b], end[b]
    for (b = 0; b < processors; b++)
        for (k = 0; k < loops; k++)
            part("fused", b, k, b ? max(first[k], begin[b] + peel[k]) : first[k],
                b < processors - 1 ? min(last[k], end[b] - shift[k]) : last[k])
    for (b = 0; b < processors - 1; b++)
        for (k = 0; k < loops; k++) part("peeled", b, k, max(first[k], end[b] - shift[k] + 1), min(last[k], end[b] + peel[k]))
    print sweeps
}
