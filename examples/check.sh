#!/bin/sh
# Works out by awk what the three examples print, and compares it with the .out files.
set -u
cd "$(dirname "$0")" || exit 1
awk=${AWK:-awk}
wrong=0

common='
function cell(edges, n, x,   i) { for (i = 0; i < n && edges[i + 1] <= x; i++); return i }
function title(edges, n, i) { return i == 0 ? "under" : i == n ? "over" : "[" edges[i] "," edges[i + 1] ")" }
function share(part, whole,   h) { if (!whole) return "none"; h = int(part * 10000 / whole); return int(h / 100) "." sprintf("%02d", h % 100) }
function step(name, label, pass, all, first) { print name ": " label " pass=" pass + 0 " all=" all + 0 " eff=" share(pass, all) " cumulative=" share(pass, first) }
function show(name, edges, n, sum, squares,   i) { print name " = histo1d " n + 1; for (i = 0; i <= n; i++) print "  " title(edges, n, i) " " sum[name, i] + 0 " " squares[name, i] + 0 }
'

compare() {
    if "$awk" -F, "$common$2" "$1.csv" | diff - "$1.out"; then
        echo "$1: awk gives the same"
    else
        echo "$1: awk differs"
        wrong=1
    fi
}

compare muon_pairs '
BEGIN {
    n = split("60000 76000 82000 86000 88000 90000 92000 94000 96000 100000 106000 120000", mass, " ")
    t = split("-2400 -1200 0 1200 2400", eta, " ")
    x = split("25000 35000 50000 80000", lead, " ")
    y = split("15000 25000 40000", trail, " ")
}
NR > 1 {
    events++
    m = split($2, pt, ";"); split($3, etas, ";"); split($4, charge, ";")
    for (i = 1; i <= m; i++) { c = cell(eta, t, etas[i]); sum["tracks", c]++; squares["tracks", c]++ }
    if (m < 2) next
    two++
    if (pt[1] <= 25000 || pt[2] <= 15000) next
    hard++
    if (etas[1] >= 2400 || etas[1] <= -2400 || etas[2] >= 2400 || etas[2] <= -2400) next
    central++
    if (charge[1] == charge[2]) { like++; next }
    opposite++
    c = cell(mass, n, $5); sum["mass", c]++; squares["mass", c]++
    if ($5 < 76000 || $5 >= 106000) next
    window++
    plane[cell(lead, x, pt[1]), cell(trail, y, pt[2])]++
    if (pt[1] > hardest) hardest = pt[1]
}
END {
    step("cutflow", "two muons", two, events, events)
    step("cutflow", "pt > 25, 15 GeV", hard, two, events)
    step("cutflow", "|eta| < 2.4", central, hard, events)
    step("cutflow", "opposite charge", opposite, central, events)
    step("cutflow", "76 to 106 GeV", window, opposite, events)
    print "pairs = " window
    print "like = " like
    show("mass", mass, n, sum, squares)
    print "plane = histo2d " x + 1 " " y + 1
    for (i = 0; i <= x; i++) for (j = 0; j <= y; j++)
        print "  " title(lead, x, i) " " title(trail, y, j) " " plane[i, j] + 0 " " plane[i, j] + 0
    print "hardest = " hardest
    show("tracks", eta, t, sum, squares)
}'

compare jet_energy '
function pass(u, percent, weight_percent,   i, pt, ht, jets, met, scalar, w, c) {
    scalar = 0
    for (i = 1; i <= m; i++) scalar += raw[i]
    met = $3 + (percent > 100 ? 1 : percent < 100 ? -1 : 0) * int(scalar * 3 / 100)
    ht = jets = 0
    for (i = 1; i <= m; i++) { pt = int(raw[i] * percent / 100); if (pt > 30000) { ht += pt; jets++ } }
    if (jets < 2) return
    two[u]++
    if (met >= 60000) return
    events[u]++; total[u] += ht
    if (!(u in softest) || ht < softest[u]) softest[u] = ht
    w = int($4 * weight_percent / 100)
    c = cell(edges, n, ht)
    sum["spectrum" u, c] += w; squares["spectrum" u, c] += w * w
}
BEGIN { n = split("60000 80000 100000 130000 170000 250000", edges, " ") }
NR > 1 {
    all++
    m = split($2, raw, ";")
    pass("", 100, 100); pass("[jes:down]", 97, 100); pass("[jes:up]", 103, 100)
    pass("[pileup:down]", 100, 95); pass("[pileup:up]", 100, 105)
}
END {
    step("flow", "two jets over 30 GeV", two[""], all, all)
    step("flow", "missing momentum below 60 GeV", events[""], two[""], all)
    k = split(",[jes:down],[jes:up],[pileup:down],[pileup:up]", u, ",")
    for (i = 1; i <= 3; i++) print "events" u[i] " = " events[u[i]]
    for (i = 1; i <= 3; i++) print "total" u[i] " = " total[u[i]]
    for (i = 1; i <= k; i++) show("spectrum" u[i], edges, n, sum, squares)
    print "njets = " all
    for (i = 1; i <= 3; i++) print "softest" u[i] " = " softest[u[i]]
}'

compare trigger_efficiency '
BEGIN { n = split("20000 22000 24000 26000 28000 30000", edges, " "); block = -1 }
NR > 1 {
    all++
    if ($5 == 1 || NR == 2) block++
    if ($3 == 1) {
        seen++
        c = cell(edges, n, $2)
        sum["all_pt", c]++
        if ($4 == 1) sum["pass_pt", c]++
        if ($2 >= 26000) {
            plateau++
            if ($4 == 1) good++
            else which = which " " $1
        }
    }
    in_all[block] = plateau; in_good[block] = good
}
END {
    for (key in sum) squares[key] = sum[key]
    show("all_pt", edges, n, sum, squares)
    show("pass_pt", edges, n, sum, squares)
    step("flow", "reference trigger", seen, all, all)
    step("flow", "plateau, 26 GeV and more", plateau, seen, all)
    step("flow", "muon trigger", good, plateau, all)
    for (i = 0; i <= block; i++) print "partial n_all over " (i ? "0-" i : 0) " = " in_all[i]
    print "n_all = " plateau
    for (i = 0; i <= block; i++) print "partial n_pass over " (i ? "0-" i : 0) " = " in_good[i]
    print "n_pass = " good
    print "which =" (which ? which : " none")
}'

exit $wrong
