# Makes the benchmark's table from the rows of several programs, a file each.
#
#     awk [-v readme=1] -f bench/table.awk FILE...
# A row has both costs, which are medians over the programs, and the median, lowest and
# highest ratio of archive to baseline.  A row of unit "times" is a ratio already: there the
# last three are the archive's own.  With readme=1 it is the table of README.md.

BEGIN { FS = "\t" }

/^# / {
    if (FNR == NR && !readme)
        print substr($0, 3)
    next
}

{
    if (!($1 in unit)) {
        name[++rows] = $1
        unit[$1] = $2
    }
    n = ++count[$1]
    archive[$1, n] = $3
    baseline[$1, n] = $4
    ratio[$1, n] = $2 == "times" ? $3 : $3 / $4
}

# Fills sorted[1 .. n] with the row's values in order.
function sort(values, what, n,    i, j, value) {
    for (i = 1; i <= n; i++) {
        value = values[what, i]
        for (j = i; j > 1 && value < sorted[j - 1]; j--)
            sorted[j] = sorted[j - 1]
        sorted[j] = value
    }
}

function median(values, what, n) {
    sort(values, what, n)
    return n % 2 ? sorted[(n + 1) / 2] : (sorted[n / 2] + sorted[n / 2 + 1]) / 2
}

function print_head() {
    if (readme) {
        print "| what | unit | archive | baseline | archive / baseline | lowest to highest |"
        print "|---|---|---|---|---|---|"
    } else {
        printf "%-52s %-9s %8s %8s   archive to baseline\n", "", "", "", ""
        printf "%-52s %-9s %8s %8s %7s %7s %7s\n", "", "", "archive", "baseline", "median",
            "lowest", "highest"
    }
}

function print_row(what,    n, cost, middle, lowest, highest) {
    n = count[what]
    cost = unit[what] == "ns/byte" ? "%.3f" : "%.2f"
    middle = median(ratio, what, n)
    lowest = sorted[1]
    highest = sorted[n]
    printf readme ? "| %s | %s | %s | %s | %.2f | %.2f to %.2f |\n" \
                  : "%-52s %-9s %8s %8s %7.2f %7.2f %7.2f\n", what, unit[what],
        sprintf(cost, median(archive, what, n)), sprintf(cost, median(baseline, what, n)),
        middle, lowest, highest
}

END {
    print_head()
    for (row = 1; row <= rows; row++)
        print_row(name[row])
}
