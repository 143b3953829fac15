# Adds the tables that jobs printed: awk -f sum.awk slurm-*.out. A file without a table, of a failed job, is an error.

$1 == "side" { heading = $0; tables++; next }

!($1 in lattices) { sides[++count] = $1 }

{
    lattices[$1] += $2
    sites[$1] += $3
    squares[$1] += $4
}

END {
    if (tables != ARGC - 1) {
        print "sum.awk: " tables + 0 " of " ARGC - 1 " files have a table" >"/dev/stderr"
        exit 1
    }
    print heading
    for (i = 1; i <= count; i++) {
        side = sides[i]
        mean = sites[side] / lattices[side]
        error = sqrt((squares[side] / lattices[side] - mean * mean) / lattices[side])
        printf "%4d %9d %9d %12.0f  %.5f +- %.5f\n", side, lattices[side], sites[side], squares[side],
            mean / side ^ 2, error / side ^ 2
    }
}
