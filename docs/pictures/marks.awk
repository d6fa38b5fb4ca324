# The marks of the picture: text, lines between cards, arrow heads, and labels that keep clear of cards and of each
# other. Colours tell levels apart in grey too: each is lighter than the one before.

function out(text) { print text }

# Text with its left end, middle or right end at x: anchor start, middle or end.
function text_at(x, y, size, anchor, words, more) {
    out(sprintf("<text x=\"%.1f\" y=\"%.1f\" font-size=\"%d\" text-anchor=\"%s\"%s>%s</text>", \
        x, y, size, anchor, more, words))
}

function box(x, y, w, h, round, style) {
    out(sprintf("<rect x=\"%.1f\" y=\"%.1f\" width=\"%.1f\" height=\"%.1f\" rx=\"%.1f\" %s/>", \
        x, y, w, h, round, style))
}

function line(x1, y1, x2, y2, style) {
    out(sprintf("<line x1=\"%.1f\" y1=\"%.1f\" x2=\"%.1f\" y2=\"%.1f\" %s/>", x1, y1, x2, y2, style))
}

function fill_of(v) {
    if (level[v] == "-") return "#ffffff"
    if (level[v] == 0) return "#e88a3c"
    if (level[v] == 1) return "#f6bd7f"
    if (level[v] == 2) return "#fde3c1"
    return "#fff5e8"
}

function min(x, y) { return x < y ? x : y }
function max(x, y) { return x < y ? y : x }
function size_of(x) { return x < 0 ? -x : x }

# Whether (x, y) lies in the card of bench v or, where they count, in one of its chips.
function covers(v, x, y, with_chips,    l) {
    if (size_of(x - cx[v]) <= CARD / 2 && size_of(y - cy[v]) <= TALL / 2) return 1
    for (l = 0; l < lights && with_chips; l++)
        if (lat[l] == v && size_of(x - kx[l]) <= CHIP_W / 2 + 1 && size_of(y - ky[l]) <= CHIP_H / 2 + 1) return 1
    return 0
}

# Where the line from (x, y) to a point of bench v, beside the middle of its card, meets the card, or a chip of it where
# they count: into rim_x, rim_y.
function rim(v, x, y, beside, with_chips,    n, i) {
    n = int(2 * sqrt((x - cx[v] - beside) ^ 2 + (y - cy[v]) ^ 2))
    for (i = 0; i <= n; i++) {
        rim_x = x + i / n * (cx[v] + beside - x); rim_y = y + i / n * (cy[v] - y)
        if (covers(v, rim_x, rim_y, with_chips)) return
    }
}

# An arrow head with its tip at (x, y), coming from (fx, fy).
function arrow(x, y, fx, fy,    n, ux, uy) {
    n = sqrt((x - fx) ^ 2 + (y - fy) ^ 2)
    ux = (x - fx) / n; uy = (y - fy) / n
    out(sprintf("<polygon points=\"%.1f,%.1f %.1f,%.1f %.1f,%.1f\" fill=\"#1b3a6b\"/>", x, y, \
        x - 13 * ux - 6 * uy, y - 13 * uy + 6 * ux, x - 13 * ux + 6 * uy, y - 13 * uy - 6 * ux))
}

# Whether boxes with these middles, widths and heights come closer than 2.
function meet(x, y, w, h, x2, y2, w2, h2) {
    return size_of(x - x2) < (w + w2) / 2 + 2 && size_of(y - y2) < (h + h2) / 2 + 2
}

# Whether the edge of heavy job i crosses the line between two points.
function cuts(i, x, y, x2, y2) { return cross(ex[i], ey[i], fx[i], fy[i], x, y, x2, y2) }

# Whether a label of heavy job r keeps clear of all cards, chips, earlier labels and other edges.
function clear_at(r, x, y, w, h,    i) {
    for (i = 0; i < benches; i++) if (meet(x, y, w, h, cx[i], cy[i], CARD, TALL)) return 0
    for (i = 0; i < lights; i++) if (meet(x, y, w, h, kx[i], ky[i], CHIP_W, CHIP_H)) return 0
    for (i = 0; i < labels; i++) if (meet(x, y, w, h, lab_x[i], lab_y[i], lab_w[i], h)) return 0
    for (i = 0; i < heavies; i++) if (i != r && (cuts(i, x - w / 2, y - h, x + w / 2, y + h) \
        || cuts(i, x - w / 2, y + h, x + w / 2, y - h))) return 0
    return x - w / 2 > 4 && x + w / 2 < WIDE - 4
}

# The label of heavy job r on its edge, as near to the middle as there is room.
function label(r, words,    w, h, i, part, x, y) {
    w = 7.2 * length(words) + 10; h = 20
    for (i = 0; i <= 40; i++) {
        part = 0.5 + (i % 2 ? 1 : -1) * int((i + 1) / 2) / 45
        x = ex[r] + part * (fx[r] - ex[r]); y = ey[r] + part * (fy[r] - ey[r])
        if (clear_at(r, x, y, w, h)) {
            lab_x[labels] = x; lab_y[labels] = y; lab_w[labels] = w; lab_text[labels] = words
            labels++
            return
        }
    }
    fail("no room for the label \"" words "\"")
}

function put_labels(    i) {
    for (i = 0; i < labels; i++) {
        box(lab_x[i] - lab_w[i] / 2, lab_y[i] - 10, lab_w[i], 20, 4, \
            "fill=\"#ffffff\" stroke=\"#1b3a6b\" stroke-width=\"1\"")
        text_at(lab_x[i], lab_y[i] + 4.5, 13, "middle", lab_text[i])
    }
}
