# SPDX-License-Identifier: MIT OR Apache-2.0
# The table of bench/run-fres from the lines of bench/fres/fres.cc.
function timed(value) { return value ~ /^[0-9.]+$/ }
NR == 1 {
    for (c = 3; c <= NF; c++) { name[c] = $c; column[$c] = c }
    ways = NF - 2
    next
}
$2 == 0 { unread = unread " " $1 " (" $3 ")"; next }
{
    files++
    for (c = 3; c <= ways; c++) {
        beside = name[c] == "minimal" ? column["minres"] : column["fres"]
        if (timed($c) && timed($beside)) {
            count[c]++
            ours[c] += $c
            theirs[c] += $beside
            below[c] += $c < $beside
            if ($column["levels"] == "same") { same_ours[c] += $c; same_theirs[c] += $beside }
            # the five worst, sorted
            ratio = $c / $beside
            for (k = 5; k > 0 && (!((c, k) in worst) || ratio > worst[c, k]); k--)
                if ((c, k) in worst) { worst[c, k + 1] = worst[c, k]; who[c, k + 1] = who[c, k] }
            if (k < 5) { worst[c, k + 1] = ratio; who[c, k + 1] = $1 }
        } else {
            what = name[c] ", " (timed($c) ? name[beside] " " $beside : $c)
            if (!(what in out)) order[++kinds] = what
            out[what] = out[what] " " $1
        }
    }
    if ($column["levels"] == "terms") terms = terms " " $1
    if ($column["levels"] == "vectors") vectors = vectors " " $1
    if ($column["numbers"] == "other") numbers = numbers " " $1
    both += $column["levels"] == "same"
    minimal += $column["numbers"] == "same"
}
END {
    print "| Way | Files | Sum, ms | Beside, ms | Ratio | With the same levels | Files below | Worst ratios |"
    print "|---|---|---|---|---|---|---|---|"
    for (c = 3; c <= ways; c++) {
        if (!count[c] || name[c] == "fres") continue
        beside = name[c] == "minimal" ? "minres" : "fres"
        line = ""
        for (k = 1; k <= 5; k++) if ((c, k) in worst) line = line (k > 1 ? ", " : "") who[c, k] " " sprintf("%.1f", worst[c, k])
        same = same_theirs[c] > 0 ? sprintf("%.2f", same_ours[c] / same_theirs[c]) : "-"
        printf "| %s | %d | %.2f | %s %.2f | %.2f | ", name[c], count[c], ours[c] / 1e3, beside, theirs[c] / 1e3, ours[c] / theirs[c]
        printf "%s | %d | %s |\n", same, below[c], line
    }
    printf "%d files. As many vectors and terms at each level as fres: %d; minimal numbers as minres: %d.\n", files, both, minimal
    if (terms != "") print "Other numbers of terms than fres:" terms
    if (vectors != "") print "Other numbers of vectors than fres:" vectors
    if (numbers != "") print "Other numbers than minres:" numbers
    for (k = 1; k <= kinds; k++) print "Left out, " order[k] ":" out[order[k]]
    if (unread != "") print "Not accepted:" unread
    exit numbers != ""
}
