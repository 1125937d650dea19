# Puts the blocks of a program in an order in which no jump goes backwards. A compiler may leave them in another order,
# also where nothing is repeated. Reads the program's units, each a line of 16 hexadecimal digits. Prints each unit of
# the new order, and behind a blank the number that it had; a jump that is added has the number of the unit before it.
# If something is repeated, prints `loop` and the number of a unit that jumps back. Prints nothing if a jump goes out of
# the program.
BEGIN { PLAIN = "0500000000000000" }  # goto

{ unit[NR - 1] = $1 }

END {
    begin_blocks()
    visit(0)
    lay(0)
    lay(1)
}

function digit(character) { return index("0123456789abcdef", character) - 1 }

# Returns the number in bytes that are spelled as digits, least byte first; it is negative if its first bit is set.
function number(digits,    k, sum) {
    for (k = length(digits) - 1; k > 0; k -= 2)
        sum = sum * 256 + digit(substr(digits, k, 1)) * 16 + digit(substr(digits, k + 1, 1))
    return sum < 2 ^ (4 * length(digits) - 1) ? sum : sum - 2 ^ (4 * length(digits))
}

function opcode(u) { return substr(unit[u], 1, 2) }

function is_jump(u) { return opcode(u) ~ /[56de]$/ && opcode(u) !~ /^(85|8d|95)$/ }

# Whether the unit behind an instruction may follow it.
function falls_through(u) { return opcode(u) !~ /^(05|06|95)$/ }

function after(u) { return u + (opcode(u) == "18" ? 2 : 1) }

function target(u) { return u + 1 + number(opcode(u) == "06" ? substr(unit[u], 9) : substr(unit[u], 5, 4)) }

function begin_blocks(    u) {
    for (u = 0; u < NR; u = after(u)) {
        if (is_jump(u)) begins[target(u)]
        if (is_jump(u) || opcode(u) == "95") begins[u + 1]
    }
}

# Returns the last instruction of the block that begins at a unit.
function last_of(block,    u) {
    for (u = block; !(after(u) in begins) && after(u) < NR; u = after(u)) { }
    return u
}

# Orders a block and those that are come to from it: each behind the blocks that lead to it, and in `order` before them.
function visit(block,    last) {
    state[block] = "open"
    last = last_of(block)
    if (is_jump(last)) follow(last, target(last))
    if (falls_through(last)) follow(last, after(last))
    state[block] = "done"
    order[++count] = block
}

function follow(from, block) {
    if (block < 0 || block >= NR) exit
    if (state[block] == "open") {
        print "loop", from
        exit
    }
    if (state[block] == "") visit(block)
}

# Finds where each block begins in the new order, or prints the units.
function lay(is_printed,    i) {
    place = 0
    for (i = count; i > 0; i--) {
        at[order[i]] = place
        lay_block(order[i], i > 1 ? order[i - 1] : -1, is_printed)
    }
}

function lay_block(block, next_block, is_printed,    u, last) {
    last = last_of(block)
    for (u = block; u < last; u++) put(unit[u], u, is_printed)
    if (falls_through(last) || opcode(last) == "95") {
        put(is_jump(last) ? jump(unit[last], target(last)) : unit[last], last, is_printed)
        if (opcode(last) == "18") put(unit[last + 1], last + 1, is_printed)
        if (falls_through(last) && after(last) != next_block) put(jump(PLAIN, after(last)), last, is_printed)
    } else if (target(last) != next_block)
        put(jump(PLAIN, target(last)), last, is_printed)
}

# Returns a jump from `place` to a block, with the opcode, the registers and the immediate of these digits of a unit.
function jump(digits, block,    distance) {
    distance = at[block] - place - 1
    return substr(digits, 1, 4) sprintf("%02x%02x", distance % 256, distance / 256) substr(digits, 9)
}

function put(digits, u, is_printed) {
    if (is_printed) print digits, u
    place++
}
