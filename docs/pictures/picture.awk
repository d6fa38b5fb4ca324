# The picture: lines first, then the cards over them, labels, legend and caption.

# The bound (5q + p) T / 3q in minutes.
function bound_text(    x) {
    x = (5 * q + p) * target / (3 * q)
    return x == int(x) ? x "" : sprintf("%.1f", x)
}

# Thin lines from each chip to the other benches that the job may go to, each to a place of its own.
function choices(    l, parts, n, i) {
    for (l = 0; l < lights; l++) {
        n = split(lset[l], parts, " ")
        for (i = 1; i <= n; i++) if (parts[i] != lat[l]) {
            rim(parts[i], kx[l], ky[l], 22 * (l % 5 - 2), 0)
            line(kx[l], ky[l], rim_x, rim_y, "stroke=\"#444444\" stroke-width=\"1.1\" stroke-dasharray=\"2 4\"")
            dot_x[dots] = rim_x; dot_y[dots] = rim_y; dots++
        }
    }
}

function dot(x, y) { out(sprintf("<circle cx=\"%.1f\" cy=\"%.1f\" r=\"3\" fill=\"#444444\"/>", x, y)) }

# The ends of the edge of heavy job r, from its lower bench to its higher one. Jobs between the same benches stand side
# by side.
function put_edge(r,    i, same, n, dx, dy) {
    same = 0
    for (i = 0; i < r; i++) if (low[i] == low[r] && high[i] == high[r]) same++
    rim(low[r], cx[high[r]], cy[high[r]], 0, 1); ex[r] = rim_x; ey[r] = rim_y
    rim(high[r], cx[low[r]], cy[low[r]], 0, 1); fx[r] = rim_x; fy[r] = rim_y
    n = sqrt((fx[r] - ex[r]) ^ 2 + (fy[r] - ey[r]) ^ 2)
    dx = -(fy[r] - ey[r]) / n * 26 * same; dy = (fx[r] - ex[r]) / n * 26 * same
    ex[r] += dx; fx[r] += dx; ey[r] += dy; fy[r] += dy
}

# The edge with an arrow to where the job is directed: dashed if there is room for it at its other bench.
function edge(r,    from, style) {
    style = "stroke=\"#1b3a6b\" stroke-width=\"3.2\""
    if (to[r] == "-") style = "stroke=\"#9a9a9a\" stroke-width=\"3.2\""
    else {
        from = to[r] == low[r] ? high[r] : low[r]
        if (!over(load[from] + hmin[r])) style = style " stroke-dasharray=\"10 5\""
    }
    line(ex[r], ey[r], fx[r], fy[r], style)
    if (to[r] == low[r]) arrow(ex[r], ey[r], fx[r], fy[r])
    if (to[r] == high[r]) arrow(fx[r], fy[r], ex[r], ey[r])
    label(r, "job " hjob[r] ": " hmin[r])
}

# The load as a bar, own part and heavy jobs, with a mark at the target and one at the bound.
function bar(x, y, w, h, mine, all,    scale, t, u) {
    scale = w / (longest * 1.04)
    box(x, y, w, h, 0, "fill=\"#ffffff\" stroke=\"#333333\" stroke-width=\"0.8\"")
    box(x, y, mine * scale, h, 0, "fill=\"#2f5f98\"")
    if (all > mine) box(x + mine * scale, y, (all - mine) * scale, h, 0, "fill=\"#a9c7e6\"")
    t = x + target * scale; u = x + (5 * q + p) * target / (3 * q) * scale
    line(t, y - 4, t, y + h + 4, "stroke=\"#000000\" stroke-width=\"1.6\" stroke-dasharray=\"2 2\"")
    line(u, y - 4, u, y + h + 4, "stroke=\"#000000\" stroke-width=\"2.2\"")
}

# Booked minutes, and those of jobs without a choice, where there are any.
function standing(v,    i, sum) {
    for (i = 0; i < fixes; i++) if (fat[i] == v) sum += fmin[i]
    if (booked[v] > 0 && sum > 0) return "booked " booked[v] ", fixed " sum
    if (booked[v] > 0) return "booked " booked[v]
    return sum > 0 ? "fixed " sum : ""
}

function card(v,    x, y, words) {
    x = cx[v] - CARD / 2; y = cy[v] - TALL / 2
    box(x, y, CARD, TALL, 6, "fill=\"" fill_of(v) "\" " (joined[v] == "-" \
        ? "stroke=\"#888888\" stroke-width=\"1\"" : "stroke=\"#000000\" stroke-width=\"3\""))
    text_at(x + 9, y + 20, 15, "start", "bench " v, " font-weight=\"bold\"")
    if (joined[v] != "-") text_at(x + CARD - 9, y + 20, 12, "end", "round " joined[v])
    words = "load " load[v] (load[v] > own[v] ? " = " own[v] " + " (load[v] - own[v]) : "")
    text_at(x + 9, y + 39, 13, "start", words)
    if (standing(v) != "") text_at(x + 9, y + 56, 12, "start", standing(v))
    bar(x + 9, y + 67, CARD - 18, 12, own[v], load[v])
}

function chips(    l) {
    for (l = 0; l < lights; l++) {
        box(kx[l] - CHIP_W / 2, ky[l] - CHIP_H / 2, CHIP_W, CHIP_H, 2, \
            "fill=\"#ffffff\" stroke=\"#444444\" stroke-width=\"1\"")
        text_at(kx[l], ky[l] + 4.5, 12, "middle", ljob[l] ": " lmin[l])
    }
}

function legend(y,    i) {
    bar(16, y - 11, 90, 12, target * 0.8, target * 1.5)
    text_at(116, y, 13, "start", "own load, then heavy jobs; marks at the target " target \
        " and the bound " bound_text())
    box(590, y - 14, CHIP_W, CHIP_H, 2, "fill=\"#ffffff\" stroke=\"#444444\" stroke-width=\"1\"")
    text_at(590 + CHIP_W / 2, y, 12, "middle", "5: 90")
    line(590 + CHIP_W, y - 4, 684, y - 4, "stroke=\"#444444\" stroke-width=\"1.1\" stroke-dasharray=\"2 4\"")
    dot(684, y - 4)
    text_at(694, y, 13, "start", "light job 5, 90 minutes, may go there")
    y += 28
    box(16, y - 13, 40, 17, 4, "fill=\"#ffffff\" stroke=\"#000000\" stroke-width=\"3\"")
    text_at(66, y, 13, "start", "in the conflict set, since the round given")
    for (i = 0; i < 3; i++) {
        level[-1] = i
        box(370 + 28 * i, y - 14, 26, 18, 0, "fill=\"" fill_of(-1) "\" stroke=\"#444444\" stroke-width=\"0.8\"")
        text_at(383 + 28 * i, y, 12, "middle", i)
    }
    text_at(462, y, 13, "start", "activated, at this level")
    line(660, y - 4, 716, y - 4, "stroke=\"#9a9a9a\" stroke-width=\"3.2\"")
    text_at(726, y, 13, "start", "heavy job, not directed (neutral)")
    y += 28
    line(16, y - 4, 72, y - 4, "stroke=\"#1b3a6b\" stroke-width=\"3.2\"")
    arrow(72, y - 4, 16, y - 4)
    text_at(82, y, 13, "start", "heavy job, directed: its other bench has no room within the bound")
    line(530, y - 4, 586, y - 4, "stroke=\"#1b3a6b\" stroke-width=\"3.2\" stroke-dasharray=\"10 5\"")
    arrow(586, y - 4, 530, y - 4)
    text_at(596, y, 13, "start", "directed, though its other bench has room (fake)")
}

# k × T against what weighs inside the activated set.
function caption(y,    v, i, k, fixed, light) {
    if (answer == "plan") {
        text_at(16, y, 15, "start", "No bench is above the bound: there is a plan.", " font-weight=\"bold\"")
        return
    }
    for (v = 0; v < benches; v++) if (v in active) { k++; fixed += booked[v] }
    for (i = 0; i < lights; i++) if (inside(lset[i])) light += lmin[i]
    for (i = 0; i < fixes; i++) if (inside(fset[i]) && !heavy(fmin[i])) light += fmin[i]
    if (least == "-") {
        text_at(16, y, 15, "start", "The heavy jobs have no placement at all.", " font-weight=\"bold\"")
        return
    }
    text_at(16, y, 15, "start", "The " k " activated benches can take " k " × " target " = " k * target \
        " minutes. Inside weigh " fixed + light + least ":", " font-weight=\"bold\"")
    text_at(16, y + 22, 14, "start", fixed " booked, " light " of light jobs that can go nowhere else, and at least " \
        least " of heavy jobs, wherever they are placed. The set blocks.")
    if (fixed + light + least <= k * target) fail("what weighs inside the activated set is not more than it can take")
}

END {
    if (failed) exit 1
    agree()
    layout()
    longest = (5 * q + p) * target / (3 * q)
    for (v = 0; v < benches; v++) longest = max(longest, load[v])
    tall = bottom + 172
    out("<svg xmlns=\"http://www.w3.org/2000/svg\" viewBox=\"0 0 " WIDE " " tall "\" width=\"" WIDE \
        "\" height=\"" tall "\" " \
        "font-family=\"Helvetica, Arial, 'Liberation Sans', sans-serif\" style=\"max-width:100%;height:auto\">")
    out("<title>How Algorithm 2 sees a day at its last exploration</title>")
    box(0, 0, WIDE, tall, 0, "fill=\"#ffffff\"")
    text_at(16, 32, 18, "start", benches " benches, " jobs " jobs, share " p "/" q ", target " target ", bound " \
        bound_text() ": the last exploration, after " moves (moves == 1 ? " move" : " moves"), " font-weight=\"bold\"")
    for (c = 0; c < columns; c++)
        text_at(MARGIN + CARD / 2 + c * step, 70, 15, "middle", title[c], " font-style=\"italic\"")
    choices()
    for (r = 0; r < heavies; r++) put_edge(r)
    for (r = 0; r < heavies; r++) edge(r)
    for (v = 0; v < benches; v++) card(v)
    chips()
    for (i = 0; i < dots; i++) dot(dot_x[i], dot_y[i])
    put_labels()
    line(16, bottom + 18, WIDE - 16, bottom + 18, "stroke=\"#bbbbbb\" stroke-width=\"1\"")
    legend(bottom + 48)
    caption(bottom + 138)
    out("</svg>")
}
