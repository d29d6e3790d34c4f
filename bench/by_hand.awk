# The generator's analysis by awk.
BEGIN {
    FS = ","
    label[2] = "[c0:down]"; shift_of[2] = -100
    label[3] = "[c0:up]"; shift_of[3] = 100
}
NR > 1 {
    all++
    for (pass = 1; pass <= 3; pass++) {
        value = $1 + shift_of[pass]
        if (value > 499) { count[pass]++; sum[pass] += value }
    }
    length_of_v = split($5, v, ";")
    for (i = 1; i <= length_of_v; i++) cell[v[i] < 0 ? 1 : v[i] < 500 ? 2 : v[i] < 1000 ? 3 : 4]++
    if (all == 1 || $4 > greatest) greatest = $4 + 0
}
function share(part, all,    hundredths) {
    if (!all) return "none"
    hundredths = int(part * 10000 / all)
    return sprintf("%d.%02d", int(hundredths / 100), hundredths % 100)
}
END {
    for (pass = 1; pass <= 3; pass++) printf "n%s = %d\n", label[pass], count[pass]
    for (pass = 1; pass <= 3; pass++) printf "s%s = %d\n", label[pass], sum[pass]
    print "h = histo1d 4"
    split("under [0,500) [500,1000) over", name, " ")
    for (i = 1; i <= 4; i++) printf "  %s %d %d\n", name[i], cell[i], cell[i]
    if (all) printf "m = %d\n", greatest
    else print "m = none"
    eff = share(count[1], all)
    printf "r: high pass=%d all=%d eff=%s cumulative=%s\n", count[1], all, eff, eff
}
