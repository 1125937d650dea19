# Prints a script of `lines` lines, each of which becomes an entry: eight points are filled at in turn, with rules in all
# three slots, and now and then something is refused or a rule is replaced. With `decisions` set, presets and releases
# instead, each of which runs a rule, and a stop behind each release: nine of ten lines have a run.
function say(line) {
    if (said < lines) { print line; said++ }
}
function load_rules() {
    # grant what was asked; where one of counter 0 is left, take it and grant what was asked; allow every price
    say("load 0 0 79101800000000009500000000000000")
    say("load 1 1 7916180000000000b701000000000000b70200000100000085000000030000001500010000000000bf600000000000009500000000000000")
    say("load 2 0 b7000000881300009500000000000000")
}
function decide_at(p, t, turn,    i) {
    for (i = 0; i < 8; i++) say("till " t " preset " p " " (9000 + (turn + i) % 1000))
    say("till " t " release " p " 8000")
    say("till " t " stop " p)
}
function fill_at(p, t, turn,    n, a) {
    n = int(turn / points) + 1
    a = 1000 + turn % 7000
    say("disp " p " up " (turn % 2 + 1))
    say("till " t " preset " p " 9000")
    say("till " t " release " p " 8000")
    say("disp " p " order")
    say("disp " p " started")
    say("disp " p " flow " int(a / 2) " " int(a / 4))
    say("disp " p " flow " a " " int(a / 2))
    say("till " t " show " p)
    say("disp " p " down")
    say("till " t " lock " p " " n)
    say("till " (t % 4 + 1) " clear " p " " n)
    say("till " t " clear " p " " n)
    say("till " t " price 1 " (1700 + turn % 200))
}
BEGIN {
    lines += 0
    points = 8
    load_rules()
    for (p = 1; p <= points; p++) say("till 1 open " p)
    for (turn = 0; said < lines; turn++) {
        if (decisions) decide_at(turn % points + 1, turn % 4 + 1, turn)
        else fill_at(turn % points + 1, turn % 4 + 1, turn)
        if (turn % 997 == 996) load_rules()
    }
}
