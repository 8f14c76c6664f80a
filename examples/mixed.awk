# Writes mixed.txt: `awk -f mixed.awk`. Calls of every kind on a few relays and tablets, so that they meet again, and among them lines that are none.

function below(n) {
    seed = (seed * 16807) % 2147483647
    return seed % n
}

function relay() {
    return below(40) == 0 ? "0" : sprintf("%.0f", 1 + 400000000 * below(9) + below(2))
}

function tablet() {
    return below(60) == 0 ? "0" : sprintf("%.0f", 1 + 107374182 * below(38) + below(2))
}

function limit() {
    return below(20) == 0 ? 4096 + below(2) : below(4)
}

function call(kind) {
    kind = below(20)
    if (kind < 4) return "a " relay() " " limit()
    if (kind < 5) return "r " relay()
    if (kind < 7) return "s " relay() " " limit()
    if (kind < 14) return "e " tablet()
    if (kind < 17) return "w " tablet()
    return "f " tablet()
}

BEGIN {
    seed = 20260
    others = split("|e|e |e  5|e 05|e 5 |e 5 6| e 5|E 5|a 10|a 10 1 1|a  10 1|a 10  1|s 10|r|f -1|f +1|w 1.0|e 4294967296|e 42949672950|e 99999999999999999999|scheme 0|scheme 1|m 5 10 20|?|x 5|e\t5|0|r 0x10|a 00 1|a 0 00", other, "|")
    print "scheme 1"
    for (i = 1; i <= 600; i++) print below(12) == 0 ? other[1 + below(others)] : call()
}
