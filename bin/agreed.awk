# The text of an evening with its lines  agreed switch S serial N cause K  as decisions of controller 0. With alone=1 the
# other lines behind the playbook's end are blank.
{
    line = $0
    sub(/#.*/, "", line)
    count = split(line, word, /[ \t\r]+/)
    first = word[1] == "" ? word[2] : word[1]
}
first == "agreed" {
    sub(/agreed/, "decide controller 0")
    print
    next
}
alone && ended { print ""; next }
{ print }
first == "end" { ended = 1 }
