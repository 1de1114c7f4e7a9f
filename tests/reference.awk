# Takes the examples and the numbers out of docs/REFERENCE.md, into files of the folder `to`: `asked`, questions for tests/reference.c, and `want`,
# the answers that the page gives; `lists`, the bytes of lists, and `notation`, what they say; `numbers`, numbers with their names and causes.
function ask(question, answer) {
    print question >(to "/asked")
    print answer >(to "/want")
}

# The digits of `bytes` without blanks.
function digits(bytes) {
    gsub(/[` ]/, "", bytes)
    return bytes
}

/^```list$/ {
    inside = "list"
    hex = said = answer = ""
    events = 0
    next
}
/^```(tree|member)$/ {
    inside = "calls"
    next
}
/^```$/ && inside == "list" {
    ask("list " hex, answer)
    print hex >(to "/lists")
    # 26 is for bytes that are no list; else there is a line for each event
    print (answer ~ /^refused with 26:/ ? "no list" : events == count ? said : "a line for each of " count " events") >(to "/notation")
}
/^```$/ { inside = "" }
inside == "list" && /^[0-9a-f ]+   / {
    split($0, part, /   +/)
    hex = hex digits(part[1])
    if (said == "") {
        split(part[2], head, ", events: ")
        said = head[1]
        count = head[2]
    } else {
        said = said " " part[2]
        events++
    }
    next
}
inside == "list" { answer = answer (answer == "" ? "" : "\n") $0 }
inside == "calls" {
    split($0, part, /   +/)
    ask(part[1] ~ /^deliver / ? "deliver " digits(substr(part[1], 9)) : part[1], part[2])
}
!inside && /^\| `[0-9a-f ]+` \| / {
    split($0, cell, / *\| */)
    ask("message " digits(cell[2]), cell[3])
}
!inside && /^\| [0-9]+ \| `[A-Z_]+` \| / {
    split($0, cell, / *\| */)
    ask("cause " cell[2], cell[4])
    gsub(/`/, "", cell[3])
    print cell[2], cell[3], cell[4] >(to "/numbers")
}
