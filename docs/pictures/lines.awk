# The lines of the program `explored` (crates/explored/src/main.rt says which there are), kept in tables:
#     benches, p, q, target, jobs     the head
#     booked[v], own[v], load[v], joined[v], level[v]     of bench v; `-` stands for none
#     heavies; hjob[r], hmin[r], low[r], high[r], to[r]   the heavy jobs between two benches
#     lights; ljob[l], lmin[l], lat[l], lset[l]           the light jobs with a choice: where it lies, all its benches
#     fixes; fmin[f], fat[f], fset[f]                     the other jobs
#     least, moves, answer, active[v]                     what the run comes to
# An impossible line, or sums that do not agree, end the run with a message and status 1.

function fail(message) {
    print "draw: " message > "/dev/stderr"
    failed = 1
    exit 1
}

# The fields of the line from number `from` on, with a space before and after each.
function rest(from,    i, text) {
    text = " "
    for (i = from; i <= NF; i++)
        text = text $i " "
    return text
}

BEGIN { heavies = lights = fixes = seen = columns = links = rows = labels = dots = 0 }

$1 == "fault" || $1 == "long" { fail("no run, and so no exploration: " $0) }
$1 == "sheet" { benches = $2; p = $3; q = $4; target = $5; jobs = $6; next }
$1 == "bench" { booked[$2] = $3; own[$2] = $4; load[$2] = $5; joined[$2] = $6; level[$2] = $7; seen++; next }
$1 == "heavy" {
    hjob[heavies] = $2; hmin[heavies] = $3; low[heavies] = $4; high[heavies] = $5; to[heavies] = $6
    heavies++
    next
}
$1 == "light" { ljob[lights] = $2; lmin[lights] = $3; lat[lights] = $4; lset[lights] = rest(5); lights++; next }
$1 == "fixed" { fmin[fixes] = $3; fat[fixes] = $4; fset[fixes] = rest(5); fixes++; next }
$1 == "least" { least = $2; next }
$1 == "plan" { answer = "plan"; moves = $2; next }
$1 == "none" {
    answer = "none"; moves = $2
    for (i = 3; i <= NF; i++) active[$i] = 1
    next
}
{ fail("no such line: " $0) }

# Whether all benches of a text " 1 2 " are activated.
function inside(set,    parts, n, i) {
    n = split(set, parts, " ")
    for (i = 1; i <= n; i++)
        if (!(parts[i] in active)) return 0
    return 1
}

# Whether so many minutes are heavy; whether they are above the bound (5q + p) T / 3q.
function heavy(minutes) { return q * minutes > p * target }
function over(minutes) { return 3 * q * minutes > (5 * q + p) * target }

# What lies on each bench adds up to its loads, and the activated set is the benches that have a level.
function agree(    v, i, mine, all) {
    if (answer == "") fail("the last line is missing")
    if (seen != benches) fail("heavy jobs crowd a component: there is no exploration to draw")
    if (heavies + lights + fixes != jobs) fail("a job is missing")
    for (v = 0; v < benches; v++) mine[v] = booked[v]
    for (i = 0; i < lights; i++) mine[lat[i]] += lmin[i]
    for (i = 0; i < fixes; i++) mine[fat[i]] += fmin[i]
    for (v = 0; v < benches; v++) all[v] = mine[v]
    for (i = 0; i < heavies; i++) if (to[i] != "-") all[to[i]] += hmin[i]
    for (v = 0; v < benches; v++) {
        if (mine[v] != own[v] || all[v] != load[v]) fail("the jobs on bench " v " do not add up to its load")
        if ((v in active) != (level[v] != "-")) fail("bench " v " is activated and has no level, or the other way")
        if (level[v] != "-" && joined[v] == "-") fail("bench " v " is activated and not in the conflict set")
    }
}
