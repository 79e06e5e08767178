# A network as SVG: its switches in a ring, its links in their clients' colours, and the way of a packet that crosses in
# red. Reads LINKS, which `links` has read without a fault, and the lines of `isolated`.
function numbered(name) {
    if (name != "all" && !(name in client)) {
        client[name] = ++clients
        called[clients] = name
    }
}
function colour(name) {
    if (name == "all") return "#777777"
    return hue[(client[name] - 1) % hues + 1]
}
function seen(s) {
    if (!(s in met)) {
        met[s] = 1
        order[++switches] = s
    }
}
function x_of(s) { return 450 + 230 * sin(6.2831853 * place[s] / switches) }
function y_of(s) { return 350 - 230 * cos(6.2831853 * place[s] / switches) }
# a line from a switch towards a point, its port's number beside its start, pushed to one side
function drawn(s, x, y, shade, wide, port, name, side, dx, dy, long) {
    dx = x - x_of(s)
    dy = y - y_of(s)
    long = sqrt(dx * dx + dy * dy)
    if (long == 0) long = 1
    printf "<line x1=\"%.1f\" y1=\"%.1f\" x2=\"%.1f\" y2=\"%.1f\" stroke=\"%s\" stroke-width=\"%d\"><title>%s</title></line>\n",
        x_of(s) + side * dy / long, y_of(s) - side * dx / long, x + side * dy / long, y - side * dx / long, shade, wide, name
    if (port == "") return
    tx = x_of(s) + (46 * dx + (side + 9) * dy) / long
    ty = y_of(s) + (46 * dy - (side + 9) * dx) / long + 4
    printf "<text x=\"%.1f\" y=\"%.1f\" class=\"port\" fill=\"%s\">%s</text>\n", tx, ty, shade, port
}
# where a port leads: a switch, or a point outside the ring
function end_of(s, p, angle, spread) {
    if ((s, p) in to) {
        ex = x_of(to[s, p])
        ey = y_of(to[s, p])
        return
    }
    spread = 0.6 * (stub[s, p] - (stubs[s] + 1) / 2)
    angle = 6.2831853 * place[s] / switches + spread
    ex = x_of(s) + 70 * sin(angle)
    ey = y_of(s) - 70 * cos(angle)
}
BEGIN { hues = split("#0072b2 #e69f00 #009e73 #cc79a7 #56b4e9 #8a6d00", hue, " ") }
FNR == 1 { part++ }
part == 1 {
    sub(/#.*/, "")
    if ($1 == "link") {
        seen($3)
        at[++links] = $3
        port[links] = $5
        whose[$3, $5] = $NF
        numbered($NF)
        if ($7 == "switch") {
            seen($8)
            to[$3, $5] = $8
        } else stub[$3, $5] = ++stubs[$3]
    } else if ($1 == "client") {
        numbered($2)
        seen($6)
        enters[$6] = enters[$6] (enters[$6] == "" ? "" : ", ") $2 " " $3
    }
    next
}
$1 == "then" { exit }
$1 == "way" && $3 > 0 || $1 == "foreign" {
    seen($2)
    red[++steps] = $2
    through[steps] = $3
    if (!(($2, $3) in whose)) stub[$2, $3] = ++stubs[$2]
}
END {
    # the switches by number around the ring
    for (s = 0; s < 16; s++) if (s in met) place[s] = turn++
    if (switches == 0) switches = 1
    print "<svg xmlns=\"http://www.w3.org/2000/svg\" viewBox=\"0 0 900 " 720 + 22 * (clients + 2) "\" font-family=\"sans-serif\">"
    print "<style>text { font-size: 13px } .port { font-size: 11px; text-anchor: middle } .name { font-weight: bold; text-anchor: middle }</style>"
    print "<rect width=\"100%\" height=\"100%\" fill=\"white\"/>"
    for (i = 1; i <= links; i++) {
        end_of(at[i], port[i])
        name = whose[at[i], port[i]]
        drawn(at[i], ex, ey, colour(name), 3, port[i], "switch " at[i] " port " port[i] ", of " name, 4)
    }
    for (i = 1; i <= steps; i++) {
        end_of(red[i], through[i])
        drawn(red[i], ex, ey, "#d00000", 5, ((red[i], through[i]) in whose) ? "" : through[i],
            "switch " red[i] " port " through[i] ": the packet's way", -4)
    }
    for (s = 0; s < 16; s++) {
        if (!(s in met)) continue
        printf "<circle cx=\"%.1f\" cy=\"%.1f\" r=\"20\" fill=\"#f4f4f4\" stroke=\"black\"/>\n", x_of(s), y_of(s)
        printf "<text x=\"%.1f\" y=\"%.1f\" class=\"name\">%d</text>\n", x_of(s), y_of(s) + 5, s
        if (enters[s] == "") continue
        angle = 6.2831853 * place[s] / switches
        anchor = sin(angle) > 0.2 ? "start" : sin(angle) < -0.2 ? "end" : "middle"
        far = stubs[s] ? 85 : 32
        printf "<text x=\"%.1f\" y=\"%.1f\" text-anchor=\"%s\">%s</text>\n", x_of(s) + far * sin(angle),
            y_of(s) - far * cos(angle) + 5, anchor, enters[s]
    }
    y = 710
    print "<text x=\"40\" y=\"" y "\">Circles are switches; beside one stand the clients and prefixes that come in there. A line is a link, with its port.</text>"
    for (i = 1; i <= clients; i++) {
        y += 22
        print "<rect x=\"40\" y=\"" y - 11 "\" width=\"30\" height=\"8\" fill=\"" colour(called[i]) "\"/><text x=\"80\" y=\"" y "\">links of " called[i] "</text>"
    }
    y += 22
    print "<rect x=\"40\" y=\"" y - 11 "\" width=\"30\" height=\"8\" fill=\"#777777\"/><text x=\"80\" y=\"" y "\">links that all may use</text>"
    if (steps) print "<rect x=\"340\" y=\"" y - 11 "\" width=\"30\" height=\"8\" fill=\"#d00000\"/><text x=\"380\" y=\"" y "\">the way of a packet that crosses</text>"
    print "</svg>"
}
