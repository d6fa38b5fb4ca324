# Where the cards of the benches stand. A column holds the benches of one level, then come those of the conflict set
# without a level, then those outside; a card is put in one of the rows of its column. All ways to choose the rows are
# tried, as long as there are not too many, and one with the fewest lines behind cards and crossings is taken.
#     WIDE, CARD, CHIP_W, CHIP_H, CHIPS       widths and heights of picture, card and chip; chips in a row
#     columns; column[v], title[c]    the columns from 0 on; rows: how many cards the highest one has
#     cx[v], cy[v]                    middle of a card
#     kx[l], ky[l]                    middle of the chip of a light job, above its card if it may go up, else below
#     links; a[k], b[k], worth[k]     what is joined by a line, and how much a crossing of it counts

function geometry() {
    WIDE = 1000; MARGIN = 16; CARD = 158; TALL = 90; PITCH = 190; TOP = 90
    CHIP_W = 50; CHIP_H = 19; CHIPS = 3
}

function add_column(text) { title[columns] = text; return columns++ }

function put_columns(    v, l, most, c, found) {
    for (v = 0; v < benches; v++) if (level[v] != "-" && level[v] + 1 > most) most = level[v] + 1
    for (l = 0; l < most; l++) {
        c = add_column("level " l (l == 0 ? ": overloaded" : ""))
        for (v = 0; v < benches; v++) if (level[v] == l && level[v] != "-") column[v] = c
    }
    found = -1
    for (v = 0; v < benches; v++) if (level[v] == "-" && joined[v] != "-") {
        if (found < 0) found = add_column("conflict set only")
        column[v] = found
    }
    found = -1
    for (v = 0; v < benches; v++) if (joined[v] == "-") {
        if (found < 0) found = add_column("outside")
        column[v] = found
    }
    for (v = 0; v < benches; v++) count[column[v]]++
    for (c = 0; c < columns; c++) if (count[c] > rows) rows = count[c]
}

function put_links(    r, l, parts, n, i) {
    for (r = 0; r < heavies; r++) { a[links] = low[r]; b[links] = high[r]; worth[links] = 4; links++ }
    for (l = 0; l < lights; l++) {
        n = split(lset[l], parts, " ")
        for (i = 1; i <= n; i++) if (parts[i] != lat[l]) {
            a[links] = lat[l]; b[links] = parts[i]; worth[links] = 1; links++
        }
    }
}

function place(v, row) {
    cx[v] = MARGIN + CARD / 2 + column[v] * step
    cy[v] = TOP + TALL / 2 + row * PITCH
}

# Twice the area of a triangle, with its sign.
function turn(x1, y1, x2, y2, x3, y3) { return (x2 - x1) * (y3 - y1) - (x3 - x1) * (y2 - y1) }

function cross(x1, y1, x2, y2, x3, y3, x4, y4) {
    return turn(x1, y1, x2, y2, x3, y3) * turn(x1, y1, x2, y2, x4, y4) < 0 \
        && turn(x3, y3, x4, y4, x1, y1) * turn(x3, y3, x4, y4, x2, y2) < 0
}

# Whether the line from (x1, y1) to (x2, y2) passes behind the card of bench v and its chips.
function behind(v, x1, y1, x2, y2,    l, r, t, m) {
    l = cx[v] - CARD / 2 - 4; r = cx[v] + CARD / 2 + 4; t = cy[v] - TALL / 2 - CHIP_H; m = cy[v] + TALL / 2 + CHIP_H
    return cross(x1, y1, x2, y2, l, t, r, m) || cross(x1, y1, x2, y2, l, m, r, t)
}

# What is bad about the rows as they are: lines behind cards, crossings, heavy jobs between cards side by side, where
# their labels have no room, and a little for length.
function cost(best,    k, m, v, sum) {
    for (k = 0; k < links; k++) {
        for (v = 0; v < benches; v++)
            if (v != a[k] && v != b[k] && behind(v, cx[a[k]], cy[a[k]], cx[b[k]], cy[b[k]])) sum += 30 * worth[k]
        for (m = 0; m < k; m++)
            if (cross(cx[a[k]], cy[a[k]], cx[b[k]], cy[b[k]], cx[a[m]], cy[a[m]], cx[b[m]], cy[b[m]]))
                sum += 2 * worth[k] * worth[m]
        if (k < heavies && cy[a[k]] == cy[b[k]] && size_of(cx[a[k]] - cx[b[k]]) < step + 1) sum += 300
        sum += ((cy[a[k]] - cy[b[k]]) / PITCH) ^ 2 / 100
        if (sum >= best) return sum
    }
    return sum
}

# Rows for the benches from v on; those of one column differ.
function try_rows(v,    row) {
    if (v == benches) {
        tried_cost = cost(best_cost)
        if (tried_cost < best_cost) {
            best_cost = tried_cost
            for (row = 0; row < benches; row++) best_row[row] = chosen[row]
        }
        return
    }
    for (row = 0; row < rows; row++) if (!((column[v], row) in taken)) {
        taken[column[v], row] = 1
        chosen[v] = row
        place(v, row)
        try_rows(v + 1)
        delete taken[column[v], row]
    }
}

# The number of ways to choose the rows.
function ways(    c, i, product) {
    product = 1
    for (c = 0; c < columns; c++) for (i = 0; i < count[c]; i++) product *= rows - i
    return product
}

# Whether light job l may go to a bench whose card is higher up, and to none further down.
function goes_up(l,    parts, n, i, up) {
    n = split(lset[l], parts, " ")
    for (i = 1; i <= n; i++) {
        if (cy[parts[i]] > cy[lat[l]]) return 0
        if (cy[parts[i]] < cy[lat[l]]) up = 1
    }
    return up
}

function put_chips(    l, up, n, side) {
    for (l = 0; l < lights; l++) {
        up = goes_up(l)
        n = side[lat[l], up]++
        kx[l] = cx[lat[l]] - CARD / 2 + CHIP_W / 2 + (n % CHIPS) * (CHIP_W + 4)
        ky[l] = TALL / 2 + 4 + CHIP_H / 2 + int(n / CHIPS) * (CHIP_H + 4)
        ky[l] = cy[lat[l]] + (up ? -ky[l] : ky[l])
        bottom = max(bottom, ky[l] + CHIP_H / 2)
    }
}

function layout(    v) {
    geometry()
    put_columns()
    put_links()
    step = columns > 1 ? (WIDE - 2 * MARGIN - CARD) / (columns - 1) : 0
    best_cost = 1000000
    if (ways() <= 20000) try_rows(0)
    else for (v = 0; v < benches; v++) best_row[v] = next_row[column[v]]++
    for (v = 0; v < benches; v++) place(v, best_row[v])
    bottom = TOP + (rows - 1) * PITCH + TALL
    put_chips()
}
