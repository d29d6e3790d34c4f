# Writes the generator's table: awk -v n=ENTRIES -v seed=SEED -f make_table.awk
BEGIN {
    print "c0:int,c1:int,c2:int,c3:int,v:vec"
    for (e = 0; e < n; e++) {
        for (j = 0; j < 4; j++) c[j] = (e * 7919 + j * 104729 + seed) % 1000
        v = ""
        for (j = 1; j <= c[0] % 4; j++) v = v (j > 1 ? ";" : "") c[j]
        print c[0] "," c[1] "," c[2] "," c[3] "," v
    }
}
