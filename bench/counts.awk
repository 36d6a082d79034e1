# The dumps of callgrind, each named row|part of the ratio|order|entries, become lines of the table.
/^desc: Trigger: Client Request: / {
    name = $0
    sub(/^desc: Trigger: Client Request: /, "", name)
}
/^(totals|summary): / && name != "" {
    split(name, part, "|")
    at = part[1] "\t" part[3] "\t" part[4]
    if (!(at in known)) { known[at] = 1; line[++lines] = at }
    if (part[2] == "over") over[at] = $2
    else under[at] = $2
    name = ""
}
END { for (i = 1; i <= lines; i++) print line[i] "\t" over[line[i]] "\t" under[line[i]] }
