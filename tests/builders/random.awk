# awk -v seed=N -v count=N -v wild=0 -f random.awk: a script of builder calls for so many tables, the same for the same seed with every awk.
# With wild=0 each is an accepted table; with wild=1 calls come in any order with any numbers, many of which fit no field or no room.
BEGIN {
    OFMT = CONVFMT = "%.0f" # some awks print numbers above 2^31 with six digits
    state = seed % 2147483646 + 1
    for (table = 0; table < count; table++) {
        if (wild) wild_table(); else fair_table()
        print "end"
    }
}

# The minimal standard generator: every product is below 2^46, which a double holds.
function random(from, to) {
    state = (state * 16807) % 2147483647
    return from + int(state / 2147483647 * (to - from + 1))
}

function least(a, b) { return a < b ? a : b }
function most(a, b) { return a > b ? a : b }

function fair_table(    k, loops) {
    arrays = random(1, 16)
    for (k = 0; k < arrays; k++) {
        lengths[k] = random(0, 3) ? random(1, 600) : random(1, 16384)
        print "array", lengths[k]
    }
    loops = random(1, 16)
    for (k = 0; k < loops; k++) fair_loop()
}

# The elements that a loop stores are chosen first, then an offset, which gives the bounds. All destinations are known before the first body:
# in `own` each array that the loop stores has its offset.
function fair_loop(    low, high, count, s) {
    split("", own)
    stored[1] = random(0, arrays - 1)
    low = random(0, lengths[stored[1]] - 1)
    high = random(low, lengths[stored[1]] - 1)
    own[stored[1]] = random(-255, least(255, low))
    first = low - own[stored[1]]
    last = high - own[stored[1]]
    count = random(0, 1) ? 1 : random(2, 4)
    for (s = 2; s <= count; s++) stored[s] = further_destination()
    print "loop", first, last, stored[1], own[stored[1]]
    left = 32
    for (s = 1; s <= count; s++) {
        if (s > 1) print "statement", stored[s], own[stored[s]]
        fair_body(left - (count - s))
    }
}

# Any array that has room for the bounds, at one offset for the loop, so that no two iterations meet; else the first destination again.
function further_destination(    array, low, high) {
    array = random(0, arrays - 1)
    low = most(-255, -first)
    high = least(255, lengths[array] - 1 - last)
    if (array in own) return array
    if (low > high) return stored[1]
    own[array] = random(low, high)
    return array
}

# At most so many of the loop's items, of which the statements behind it need one each. Every item but negate needs room for the operations
# that bring the waiting numbers to one.
function fair_body(at_most,    wanted) {
    room = at_most
    waiting = 0
    wanted = random(1, room)
    for (items = 0; items + waiting < wanted || waiting == 0; items++) fair_item()
    left -= items + waiting - 1
    for (; waiting > 1; waiting--) print "operation", random(1, 4)
}

function fair_item(    choice) {
    choice = random(0, 9)
    if (waiting == 0 || (choice < 6 && waiting < 8 && items + waiting + 1 <= room)) {
        if (choice < 4) fair_read(); else fair_constant()
        waiting++
    } else if (choice < 8 && waiting > 1) {
        print "operation", random(1, 4)
        waiting--
    } else {
        print "operation", 5
    }
}

# A read inside its array; of an array that the loop stores only the element that the iteration stores itself, so that no two iterations meet.
function fair_read(    array, low, high) {
    array = random(0, arrays - 1)
    low = most(-255, -first)
    high = least(255, lengths[array] - 1 - last)
    if (array in own) print "read", array, own[array]
    else if (low <= high) print "read", array, random(low, high)
    else fair_constant()
}

function fair_constant() {
    print "constant", random(0, 2) ? random(0, 1000) : random(0, 65535) * 65536 + random(0, 65535)
}

function wild_table(    calls) {
    calls = random(0, 3) ? random(0, 60) : random(300, 900)
    strange = random(0, 2) ? 0 : 60
    for (; calls > 0; calls--) wild_call(random(0, 5))
}

function wild_call(kind) {
    if (kind == 0) print "array", wild_number(4294967295, 0)
    else if (kind == 1) print "loop", wild_number(4294967295, 0), wild_number(4294967295, 0), wild_number(255, 0), wild_offset()
    else if (kind == 2) print "read", wild_number(255, 0), wild_offset()
    else if (kind == 3) print "constant", wild_number(4294967295, 0)
    else if (kind == 4) print "operation", wild_number(255, 0)
    else print "statement", wild_number(255, 0), wild_offset()
}

function wild_offset() { return wild_number(32767, -32768) }

# Mostly in the field's range, its ends among them. In some tables one number in sixty is just outside, or far.
function wild_number(top, bottom,    choice) {
    if (strange && random(1, strange) == 1) {
        choice = random(0, 3)
        return choice == 0 ? top + 1 : choice == 1 ? bottom - 1 : choice == 2 ? top * 4096 : -top * 4096
    }
    choice = random(0, 5)
    if (choice == 0) return top
    if (choice == 1) return bottom
    if (choice == 2) return random(0, 20)
    return bottom + random(0, 65535) * int((top - bottom) / 65536) + random(0, (top - bottom) % 65536)
}
