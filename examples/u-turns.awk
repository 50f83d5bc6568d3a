# Writes bans on turning back: from each line to the one that goes back along it, wherever another line leads on.
#
#     awk -F, -f u-turns.awk bans.csv lines.csv > u-turns.csv
#
# The bans of bans.csv come first, and a turn that they ban doesn't lead on. A map without bans needs lines.csv alone.

BEGIN {
    print "from,to"
}

FNR == 1 {
    of_bans = $1 == "from"
    next
}

of_bans {
    print
    banned[$0]
    shut[$1]++
    next
}

# lines of a map: id,from,to,class,form,length,shape
{
    reversed = ""
    for (i = split($7, points, ";"); i > 0; i--)
        reversed = reversed points[i] (i > 1 ? ";" : "")
    ids[++lines] = $1
    end[$1] = $3
    starting[$2]++
    along[$2 "," $3 "," $7] = along[$2 "," $3 "," $7] " " $1
    back[$1] = $3 "," $2 "," reversed # the ends and the shape of a line that leads back
}

END {
    for (i = 1; i <= lines; i++) {
        id = ids[i]
        found = 0
        count = split(along[back[id]], others, " ")
        for (j = 1; j <= count; j++)
            if (others[j] != id && !((id "," others[j]) in banned))
                ban[++found] = id "," others[j]
        if (starting[end[id]] - shut[id] > found)
            for (j = 1; j <= found; j++)
                print ban[j]
    }
}
