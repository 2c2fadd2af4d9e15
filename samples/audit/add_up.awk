# Adds up the lines of a day, as lines_of_a_day.sql prints them, in cents, and compares the sum with the batch of the day. It ends with status 1 where the two differ.
function cents(text,   parts) {
    if (text !~ /^[0-9]+\.[0-9][0-9]$/) { print "no sum of money: " text; wrong = 1; return 0 }
    split(text, parts, ".")
    return parts[1] * 100 + parts[2]
}
function money(sum) { return sprintf("%d.%02d", int(sum / 100), sum % 100) }
$1 == "batch" { batch = $2 " tickets, " $3 " bonds, " $4; next }
{
    if (!($1 in of_ticket)) order[++tickets] = $1
    of_ticket[$1] += cents($3)
    bonds_of[$1]++
    bonds++
    total += cents($3)
}
END {
    for (i = 1; i <= tickets; i++) print "ticket " order[i] ": " bonds_of[order[i]] " bonds, " money(of_ticket[order[i]])
    added = (tickets + 0) " tickets, " (bonds + 0) " bonds, " money(total)
    print "added up: " added
    if (batch == "") { print "no batch: the day is open, or is none"; exit wrong }
    print "batch: " batch
    if (batch != added) wrong = 1
    print wrong ? "THEY DIFFER" : "they agree"
    exit wrong
}
