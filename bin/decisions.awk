# The agreed list of an evening in the notation that `disassemble` prints: a line SWITCH SERIAL CAUSE for each decision of
# the controller that decides most. A decision that a controller is brought again at once counts once, as one refused by
# 24 is. Where a controller's decisions are no beginning of that list, one line: apart CONTROLLER CONTROLLER.
$1 == "controllers" { n = $2 }
$1 == "decide" && $3 < n {
    c = $3 + 0
    this = $5 " " $7 " " $9
    if (many[c] > 0 && list[c, many[c]] == this) next
    list[c, ++many[c]] = this
}
END {
    best = 0
    for (c = 1; c < 16; c++) if (many[c] + 0 > many[best] + 0) best = c
    for (c = 0; c < 16; c++)
        for (i = 1; i <= many[c] + 0; i++)
            if (list[c, i] != list[best, i]) {
                print "apart " (c < best ? c " " best : best " " c)
                exit
            }
    for (i = 1; i <= many[best] + 0; i++) print list[best, i]
}
