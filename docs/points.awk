# The fourteen points from their definitions: of each row of the Rows.antt of points, flag, finish and mark what it touches, and where it, or a definition that it uses,
# sends the process. "help" and "end" are the definitions helping and help_ended of help/specs/Help.antt. Prints a table, or with -v svg=1 a drawing.

# Definitions stand one to a paragraph: the words behind the signature, without comments and without left-hand sides.
function read(file,    line, name, word) {
    while ((getline line < file) > 0) {
        if (line == "") name = ""
        else if (line ~ /^(abbrev|unfoldable) pub /) { split(line, word, " "); name = word[3] }
        else if (name != "" && line !~ /^ *--/) { sub(/^[^=]* = /, "", line); body[name] = body[name] " " line }
    }
    close(file)
}

# What stands behind the first argument of a call.
function behind(text,    at, deep, c) {
    for (at = 1; at <= length(text); at++) {
        c = substr(text, at, 1)
        if (c == "(") deep++
        if (c == ")") deep--
        if (deep == 0 && c == " ") break
    }
    return substr(text, at + 1)
}

# The numbers of a text that stand in no parentheses: points, where they are arguments of look_row and hang_row, and where 3 chooses.
function numbers(from, text,    n, word, i) {
    while (gsub(/\([^()]*\)/, "", text)) {}
    n = split(text, word, " ")
    for (i = 1; i <= n; i++) if (word[i] ~ /^[0-9]+$/) leads[from, word[i]] = 1
}

function follow(from, name,    text, rest, at, n, word, i) {
    if (met[from, name]++) return
    text = body[name]
    if (text ~ /(look_row|hang_row) / || name == "point_after3") numbers(from, text)
    for (rest = text; (at = index(rest, "with_point ")) > 0;) {
        rest = behind(substr(rest, at + 11))
        if (match(rest, /^[0-9]+/)) leads[from, substr(rest, 1, RLENGTH)] = 1
    }
    n = split(text, word, /[ ()]+/)
    for (i = 1; i <= n; i++) {
        if (word[i] in to) leads[from, to[word[i]]] = 1
        else if (word[i] == "with_index") leads[from, from] = 1
        else if (word[i] == "answer") leads[from, answer[word[i + 1]]] = 1
        else if (word[i] in body) follow(from, word[i])
    }
}

function touch(n,    text, node) {
    text = ("touch" n) in body ? body["touch" n] : body["row" n]
    match(text, /q\.gp|q\.p|helped_p|helped_third/)
    node = substr(text, RSTART, RLENGTH)
    node = node == "q.p" || node == "helped_p" ? "p" : "gp"
    if (text ~ /look_row|read_child/) return "reads a child of " node
    if (text ~ /hang_row/) return "swaps a child of " node
    return (text ~ /read_pending/ ? "reads " : "swaps ") node "'s pending"
}

function table(    i, j, line) {
    print "point  what it does         goes to"
    for (i = 1; i <= 16; i++) {
        line = ""
        for (j = 1; j <= places; j++) if ((place[i], place[j]) in leads) line = line " " place[j]
        printf "%5s  %-19s %s\n", place[i], label[place[i]], line
    }
}

function put(name, at_x, at_y) { x[name] = at_x; y[name] = at_y }

# From the edge of one box to the edge of another, straight; or bent by two points that the layout names.
function arrow(a, b,    dx, dy, s) {
    if ((a, b) in bend) { print "<path d=\"" bend[a, b] "\"/>"; return }
    dx = x[b] - x[a]; dy = y[b] - y[a]
    s = edge(dx, dy)
    printf "<path d=\"M %d %d L %d %d\"/>\n", x[a] + s * dx, y[a] + s * dy, x[b] - s * dx, y[b] - s * dy
}
function size(v) { return v < 0 ? -v : v }
function edge(dx, dy,    s, t) {
    s = dx == 0 ? 9 : 88 / size(dx)
    t = dy == 0 ? 9 : 24 / size(dy)
    return s < t ? s : t
}

function box(name, shape,    said, j) {
    printf "<rect class=\"%s\" x=\"%d\" y=\"%d\" width=\"172\" height=\"44\" rx=\"%d\"/>\n", shape, x[name] - 86, y[name] - 22, shape == "hub" ? 22 : 4
    if ((name, name) in leads) said = "each child in turn"
    for (j = places - 2; j <= places; j++) if ((name, place[j]) in leads) said = said (said == "" ? "answers " : ", ") place[j]
    printf "<text x=\"%d\" y=\"%d\">%s</text>\n", x[name], y[name] + (said == "" ? 5 : -2), (shape == "hub" ? "" : name " ") label[name]
    if (said != "") printf "<text class=\"said\" x=\"%d\" y=\"%d\">%s</text>\n", x[name], y[name] + 14, said
}

function drawing(    i, j) {
    put(1, 120, 60); put(2, 120, 150); put(3, 120, 310); put(4, 350, 200); put(5, 350, 310)
    put(6, 590, 150); put(7, 590, 230); put(8, 590, 400)
    put(9, 830, 310); put(11, 830, 390); put(12, 830, 470); put(13, 830, 550); put(14, 830, 630)
    put("help", 590, 50); put("end", 590, 540); put(10, 350, 540)
    bend[1, 2] = "M 135 82 L 135 126"; bend[2, 1] = "M 105 128 L 105 84"
    bend[6, 8] = "M 677 155 C 715 200 715 340 678 392"; bend[12, 14] = "M 917 475 C 950 510 950 590 918 625"
    bend[5, "help"] = "M 412 287 L 528 74"
    bend["help", 9] = "M 655 72 L 800 286"; bend[9, "help"] = "M 840 288 C 835 150 780 55 678 50"
    bend["help", 11] = "M 672 40 C 985 20 985 370 918 388"
    bend["help", "end"] = "M 520 64 C 455 160 455 430 530 516"
    bend["end", 10] = "M 503 533 L 438 533"; bend[10, "end"] = "M 437 550 L 502 550"
    bend["end", "restart"] = "M 590 562 L 590 610 L 15 610 L 15 60 L 32 60"
    print "<svg xmlns=\"http://www.w3.org/2000/svg\" viewBox=\"0 0 990 670\" font-family=\"sans-serif\" font-size=\"14\" text-anchor=\"middle\">"
    print "<style>rect{fill:#fff;stroke:#333}rect.hub{fill:#eee}path{fill:none;stroke:#333;marker-end:url(#tip)}.said{font-size:12px;fill:#555}</style>"
    print "<marker id=\"tip\" viewBox=\"0 0 8 8\" refX=\"7\" refY=\"4\" markerWidth=\"8\" markerHeight=\"8\" orient=\"auto\"><path d=\"M 0 0 L 8 4 L 0 8 z\" style=\"fill:#333;stroke:none;marker-end:none\"/></marker>"
    print "<rect x=\"0\" y=\"0\" width=\"990\" height=\"670\" style=\"stroke:none\"/>"
    for (i = 1; i <= 16; i++) for (j = 1; j <= 17; j++) if (i != j && (place[i], place[j]) in leads) arrow(place[i], place[j])
    for (i = 1; i <= 14; i++) box(place[i], "point")
    box("help", "hub"); box("end", "hub")
    print "<text class=\"said\" x=\"120\" y=\"604\">restart</text>"
    print "</svg>"
}

BEGIN {
    to["to_three"] = 3; to["to_six"] = 6; to["to_nine"] = 9; to["to_ten"] = 10; to["to_eleven"] = 11; to["to_twelve"] = 12
    to["restarted_of"] = "restart"; to["helping"] = "help"; to["help_ended"] = "end"
    answer[0] = "no"; answer[1] = "yes"; answer[2] = "full"
    places = split("1 2 3 4 5 6 7 8 9 10 11 12 13 14 help end restart no yes full", place, " ")
    read("crates/points/specs/Rows.antt")
    read("crates/flag/specs/Rows.antt")
    read("crates/finish/specs/Rows.antt")
    read("crates/mark/specs/Rows.antt")
    read("crates/help/specs/Reads.antt")
    read("crates/help/specs/Help.antt")
    for (n = 1; n <= 14; n++) {
        if (!("row" n in body)) { print "there is no row" n > "/dev/stderr"; exit 1 }
        follow(n, "row" n)
        label[n] = touch(n)
    }
    follow("help", "helping"); label["help"] = "help what was seen"
    follow("end", "help_ended"); label["end"] = "help has ended"
    if (svg) drawing(); else table()
}
