# What the check of isolation found, in words. Reads LINKS (network), the evening as `disassemble` prints it (plain), its
# decisions (decisions), which may be none, and the lines of `isolated`. Prints a line  status N  and then the words; where a packet crosses at rest, the file `script` gets
# a rehearsal that makes these changes and no other. LINKS is good: `links` has read it.
function numbered(name) {
    if (name != "all" && !(name in client)) {
        client[name] = ++clients
        called[clients] = name
    }
}
function address(a) {
    return int(a / 16777216) "." int(a / 65536) % 256 "." int(a / 256) % 256 "." a % 256
}
function counted(many, word) { return many " " word (many == 1 ? "" : "s") }
# a port of a switch, and whose link it is
function whose(s, p) {
    if (!((s, p) in owner)) return "switch " s " by port " p ", which has no link"
    return "switch " s " by port " p ", a link of " owner[s, p]
}
function changes_of(list) { return list == "" ? "before any change is made" : "once changes" list " are made" }
FILENAME ~ /network$/ {
    sub(/#.*/, "")
    if ($1 == "link") {
        owner[$3, $5] = $NF
        numbered($NF)
        links++
    } else if ($1 == "client") {
        numbered($2)
        lines++
    }
    next
}
FILENAME ~ /plain$/ {
    if (!ended) head[++heads] = $0
    if ($1 == "plan") plan = $3 " " $5
    if ($1 == "change") size[plan]++
    if ($1 == "end") ended = 1
    next
}
FILENAME ~ /decisions$/ {
    if ($1 != "apart") list[++decisions] = $0
    next
}
$1 == "decision" {
    if (!again++) decisions = 0
    list[++decisions] = $2 " " $3 " " $4
    next
}
$1 == "changes" { agreed = $2 }
$1 == "refused" { refused = $2 }
$1 == "lists" { place = $2; lists = $3 }
$1 == "tried" { tried = $2; spent["tried"] = $3 }
$1 == "resting" || $1 == "moving" || $1 == "losing" {
    said[$1] = $2
    spent[$1] = $3
    whom[$1] = called[$4]
    where[$1] = address($5)
}
$1 == "then" { late = 1 }
$1 == "way" {
    if (late) { lost = $2 } else {
        way = way (way == "" ? "" : ", ") "switch " $2 " port " $3
        last = whose($2, $3)
    }
}
$1 == "made" {
    made = made " " $2
    change[++makes] = $2
    on[makes] = $3
    first[makes] = $4
}
$1 == "known" { known = known " " $2 }
$1 == "before" { before = before " " $2 }
$1 == "foreign" { foreign = foreign (foreign == "" ? "" : ", or ") whose($2, $3) }

# The rehearsal: decisions as late as may be, then for each number the shares of a quorum and its reports.
function bring(upto, i, word, c) {
    for (; brought < decisions && through < upto;) {
        split(list[++brought], word, " ")
        if (word[2] + 0 > serial[word[1]] + 0) {
            serial[word[1]] = word[2]
            through += size[word[1] " " word[3]]
        }
        for (c = 0; c < quorum; c++)
            print "decide controller " c " switch " word[1] " serial " word[2] " cause " word[3] >script
    }
}
function write_script(i, c) {
    print "# " sentence >script
    for (i = 1; i <= heads; i++) print head[i] >script
    quorum = int((n - 1) / 3) + 1
    for (i = 1; i <= makes; i++) {
        bring(change[i])
        for (c = 0; c < quorum; c++)
            print "send controller " c " switch " on[i] (c == quorum - 1 ? "   # change " change[i] : "") >script
        for (c = 0; c < quorum; c++) print "report switch " on[i] " controller " c >script
    }
}
function too_many() {
    if (agreed > 64)
        print "note: more than 64 changes are agreed; question 24 may keep every run from making exactly these"
}
END {
    found = place != "" ? ", in list " place " of " lists : ""
    if (place != "")
        for (i = 1; i <= decisions; i++) {
            split(list[i], word, " ")
            found = found (i == 1 ? ": " : ", then ") "switch " word[1] " cause " word[3]
        }
    if (refused != "") {
        print "status 4\n" evening ": refused (" refused ")"
    } else if (tried != "") {
        print "status 0"
        print "no order of arrival takes a result off its lab's links, nor one under way: " counted(tried, "list") \
            " of up to " counted(any, "decision") ", " spent["tried"] " states and steps checked"
    } else if (agreed > 256) {
        print "status 4\n" agreed " changes are agreed, and the check has room for 256; give fewer decisions"
    } else if (said["resting"] == 1) {
        sentence = "packets of " whom["resting"] " to " where["resting"] " leave " last ", " changes_of(made)
        print "status 6\n" sentence found
        print "their way: " way
        too_many()
        write_script()
    } else if (said["resting"] == 2) {
        print "status 7\nundecided: " counted(budget, "state") " were not enough" found \
            "; give a larger --budget, --settled, or fewer decisions"
    } else if (said["moving"] == 1) {
        print "status 6\nwhile all stands still no order of arrival takes a result off its lab's links: " \
            counted(spent["resting"], "state") " checked"
        print "packets of " whom["moving"] " to " where["moving"] " that are under way may leave " foreign ", " \
            changes_of(known) found
        too_many()
    } else if (said["moving"] == 2) {
        print "status 7\nwhile all stands still no order of arrival takes a result off its lab's links: " \
            counted(spent["resting"], "state") " checked"
        print "undecided under way: " counted(budget, "step") " were not enough" found \
            "; give a larger --budget, --settled, or fewer decisions"
    } else if (said["resting"] == 0 && said["moving"] == 0) {
        print "status 0\nno order of arrival takes a result off its lab's links: " counted(spent["resting"], "state") " checked"
        print "nor one under way while tables change: " counted(spent["moving"], "step") " checked"
        print counted(clients, "client") ", " counted(links, "link") ", " counted(agreed, "change") " of " \
            counted(decisions, "decision") (settled > 0 ? ", those up to " settled " made" : "")
    } else print "status 3\nthe links are no network of the domain"
    if (said["losing"] == 1)
        print "note: packets of " whom["losing"] " to " where["losing"] " are lost at switch " lost ", " changes_of(before)
}
