# Lines of row, order, number of entries and both parts of a ratio become one table; of each part the least over all runs is taken.
BEGIN {
    FS = "\t"
    orders = split("shuffled,rising,falling,one torque", order, ",")
    sizes = split("64,512,4096", size, ",")
    head = "| ratio |"
    rule = "|---|"
    for (o = 1; o <= orders; o++) for (s = 1; s <= sizes; s++) {
        head = head " " order[o] " " size[s] " |"
        rule = rule "---:|"
    }
}
function shown(x) { return x < 0.005 ? "<0.01" : x < 10 ? sprintf("%.2f", x) : x < 100 ? sprintf("%.1f", x) : sprintf("%.0f", x) }
{
    at = $1 FS $2 FS $3
    if (!($1 in known)) { known[$1] = 1; row[++rows] = $1 }
    if (!(at in over) || $4 < over[at]) over[at] = $4
    if (!(at in under) || $5 < under[at]) under[at] = $5
}
END {
    print head
    print rule
    for (r = 1; r <= rows; r++) {
        line = "| " row[r] " |"
        for (o = 1; o <= orders; o++) for (s = 1; s <= sizes; s++) {
            at = row[r] FS order[o] FS size[s]
            line = line " " (!(at in over) ? "" : under[at] > 0 ? shown(over[at] / under[at]) : "-") " |"
        }
        print line
    }
}
