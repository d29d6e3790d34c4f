# The same count and sums by awk.
BEGIN { FS = "," }
NR > 1 { n++; a += $1; b += $4 }
END { printf "n = %d\na = %d\nb = %d\n", n, a, b }
