# The picture of a day report, as SVG. It reads the report's text and nothing else, so that it shows what was proved.
# Every awk writes the same bytes: numbers of the report are kept as the text they came in, and places on the
# picture are written with one decimal. "ended" is "no" where the last line came without its end.

# ---- The report

BEGIN { segments = jobs = servers = 0; told = "" }

function fault(what) { print "day-chart: " what > "/dev/stderr"; failed = 1; exit 1 }

{ sub(/\r$/, "") }
NR == 1 && /^refused [0-9]+ [0-9]+$/ { refused = $2; place = $3; next }
NR == 1 && /^admitted [0-9]+ of [0-9]+$/ { admitted = $2; frame = $4; next }
NR == 1 || refused { fault("line " NR " is not a line of a day report: " substr($0, 1, 60)) }
/^segment [0-9]+ [0-9]+ [0-9]+ [0-9]+$/ && told == "" {
    start[segments] = $2; len[segments] = $3; of[segments] = $4 + 0; due[segments] = $5
    segments++
    next
}
/^segments [0-9]+ shown [0-9]+$/ && told == "" { told = $2; shown = $4; next }
/^job [0-9]+ [0-9]+ [0-9]+ ([0-9]+ [0-9]+|open -)$/ && told != "" && servers == 0 {
    if ($2 + 0 != jobs) fault("line " NR " has job " $2 " where job " jobs " is due: the report is not whole")
    owner[jobs] = $3 + 0; moment[jobs] = $4; finish[jobs] = $5; response[jobs] = $6
    jobs++
    next
}
/^server [0-9]+ arrived [0-9]+ finished [0-9]+ total ([0-9]+|-) longest ([0-9]+|-) postponed [0-9]+ interrupted [0-9]+$/ && told != "" {
    if ($2 + 0 != servers) fault("line " NR " has server " $2 " where server " servers " is due: the report is not whole")
    arrived[servers] = $4; finished[servers] = $6; total[servers] = $8; longest[servers] = $10
    postponed[servers] = $12; interrupted[servers] = $14
    servers++
    next
}
{ fault("line " NR " is not a line of a day report: " substr($0, 1, 60)) }

# Why a text whose lines are those of a report is not a whole one; "" where nothing tells. The lines of the segments are
# counted by the line after them, and the jobs of each server by its own line. A text that was cut among servers at the
# end that have no jobs cannot be told from a whole one: nothing in a report says how many servers there are.
function missing(    k, s, count) {
    if (told == "") return "it ends among the segments"
    if (segments != shown + 0) return "it has " many(segments, "segment", "segments") " and says that " shown " are shown"
    if (shown + 0 > told + 0) return "it says that " shown " segments of " told " are shown"
    for (k = 0; k < segments; k++) if (of[k] >= servers) return "segment " k " is of server " of[k] ", which has no line"
    for (k = 0; k < jobs; k++) {
        if (owner[k] >= servers) return "job " k " is of server " owner[k] ", which has no line"
        count[owner[k]]++
    }
    for (s = 0; s < servers; s++)
        if (count[s] + 0 != arrived[s] + 0) return "it has " many(count[s] + 0, "job", "jobs") " of server " s ", of which " arrived[s] " arrived"
    return ended == "no" ? "its last line has no end" : ""
}

# ---- Words

# 604800 as 604,800; a decimal part stays.
function grouped(n,    text, rest, at) {
    text = n ""
    rest = ""
    at = index(text, ".")
    if (at) { rest = substr(text, at); text = substr(text, 1, at - 1) }
    while (length(text) > 3) { rest = "," substr(text, length(text) - 2) rest; text = substr(text, 1, length(text) - 3) }
    return text rest
}

function many(n, one, more) { return grouped(n) " " (n == 1 ? one : more) }

# A moment as a clock shows it, one tick being one second: day 1 00:00, with seconds where there are any.
function clock(t,    d, s, text) {
    d = int(t / 86400)
    s = t - d * 86400
    text = sprintf("%02d:%02d", int(s / 3600), int(s % 3600 / 60))
    if (s % 60) text = text sprintf(":%02d", s % 60)
    return "day " grouped(d + 1) " " text
}

# A length as people say it, one tick being one second.
function span(t) {
    t = int(t + 0.5)
    return t < 60 ? t " s" : t < 3600 ? int(t / 60) " min" (t % 60 ? " " t % 60 " s" : "") : grouped(int(t / 3600)) " h " int(t % 3600 / 60) " min"
}

# A length in the lane, and beside the lane.
function length_words(t) { return by_clock ? span(t) : grouped(t) }
function length_beside(t) { return grouped(t) (by_clock ? " (" span(t) ")" : "") }

# A moment in a remark: its number, and by the clock where the axis goes by the clock.
function moment_words(t) { return grouped(t) (by_clock ? " (" clock(t) ")" : "") }

# How wide a text is drawn, at most: by the widths of DejaVu Sans, the widest of the letters named below.
function wide(text, size,    all, narrow, half, broad) {
    all = length(text)
    narrow = gsub(/[ .,:ijl]/, "", text)
    half = gsub(/[frt]/, "", text)
    broad = gsub(/[mw]/, "", text)
    return size * (0.34 * narrow + 0.42 * half + 0.98 * broad + 0.64 * (all - narrow - half - broad))
}

# ---- Drawing

function x(t) { return left + t * scale }
function text_at(px, py, class, what) { printf "<text x=\"%.1f\" y=\"%.1f\" class=\"%s\">%s</text>\n", px, py, class, what }
function remark(what) { return "<title>" what "</title>" }

function open_picture(width, height, name) {
    printf "<svg xmlns=\"http://www.w3.org/2000/svg\" width=\"%d\" height=\"%d\" viewBox=\"0 0 %d %d\" role=\"img\">\n", width, height, width, height
    print "<title>" name "</title>"
    print "<style>"
    print "text{font-family:system-ui,-apple-system,\"Segoe UI\",Roboto,\"Helvetica Neue\",Arial,\"DejaVu Sans\",sans-serif;font-size:12px;fill:#222}"
    print ".h{font-size:21px;font-weight:600}.p{font-size:13px;fill:#444}.w{font-size:13px;fill:#a8200d;font-weight:600}"
    print ".n{font-size:13px;font-weight:600}.d{font-size:11px;fill:#444}.x{font-size:11.5px;text-anchor:middle}.xd{font-size:11.5px;text-anchor:middle;font-weight:600}"
    print ".s{font-size:9.5px;fill:#444}.m{font-size:9.5px;fill:#444;text-anchor:middle}.l{font-size:11px;text-anchor:middle}.o{font-size:11px;fill:#a8200d;font-weight:600}"
    print ".g{stroke:#d5d5d5;stroke-width:1}.f{stroke:#ececec;stroke-width:1}.b{stroke:#999;stroke-width:1}"
    print ".t{fill:none;stroke-width:1;stroke-dasharray:1.5 2.5}.k{fill:none;stroke-width:1;stroke-opacity:.75}.j{stroke:#8a8a8a;stroke-width:1.4}.a{fill:#222}.e{fill:none;stroke:#777;stroke-width:.8}"
    print ".c{fill:none;stroke:#222;stroke-width:1.6;stroke-linecap:round;stroke-linejoin:round}"
    print ".r{fill:#fff;stroke:#c1260f;stroke-width:1.6}.u{fill:none;stroke:#c1260f;stroke-width:1.6;stroke-dasharray:5 3}"
    print "</style>"
    printf "<rect width=\"%d\" height=\"%d\" fill=\"#fff\"/>\n", width, height
}

function refused_picture(    why, words, at) {
    why[1] = "the length of the file is outside its size range, 24 to 65,536 bytes"
    why[2] = "a number of the header, H, N, n or m, is out of range"
    why[3] = "an offset breaks the layout: header, servers, arrivals, in this order and within the file"
    why[4] = "a server has T = 0, or T not dividing H, or Q = 0, or Q above T"
    why[5] = "the shares add up to more than H: the node is booked beyond what it has"
    why[6] = "an arrival names a server that is not in the table, or its cost is out of range"
    why[7] = "the moment of an arrival is before the one listed before it"
    why[8] = "the moment of an arrival is at the horizon N or later"
    words = (refused in why) ? why[refused] : "not a number that a day report gives"
    at = refused == 4 ? "The first such server is server " grouped(place) "." : refused ~ /^[678]$/ ? "It is arrival " grouped(place) "." : "The file as a whole is meant."
    open_picture(900, 150, "Day report: refused " refused " at place " place)
    print "<rect x=\"0\" y=\"0\" width=\"8\" height=\"150\" fill=\"#c1260f\"/>"
    text_at(34, 48, "h", "Day report: refused " refused " at place " place)
    text_at(34, 84, "n", "Refusal " refused ": " words ".")
    text_at(34, 110, "p", at " Nothing was run.")
    print "</svg>"
}

# The marks of the picture. Each has its point at the place given.
function arrival_mark(px, py, class, what) { printf "<path class=\"%s\" d=\"M%.1f %.1fl-%.1f %.1fh%.1fz\">%s</path>\n", class, px, py, mark * 0.55, mark, mark * 1.1, remark(what) }
function finish_mark(px, py, what) { printf "<path class=\"c\" d=\"M%.1f %.1fm-%.1f -%.1fl%.1f %.1fl%.1f -%.1f\">%s</path>\n", px, py, mark * 0.5, mark * 0.5, mark * 0.5, mark * 0.45, mark * 0.65, mark * 1.05, remark(what) }
function open_mark(px, py, what) { printf "<circle class=\"r\" cx=\"%.1f\" cy=\"%.1f\" r=\"4.5\">%s</circle>\n", px, py, remark(what) }
# A deadline's pole is dotted beside the bars, so that it is not taken for a short one.
function deadline_mark(px, top, middle, bottom, colour, what) {
    printf "<path fill=\"%s\" stroke=\"%s\" d=\"M%.1f %.1fV%.1fl6 3l-6 3\">%s</path>\n", colour, colour, px, middle, top, remark(what)
    if (bottom > middle) printf "<path class=\"t\" stroke=\"%s\" d=\"M%.1f %.1fV%.1f\"/>\n", colour, px, middle, bottom
}

# ---- The axis

# How far it goes: to the last thing of the report that it can show to scale.
function axis_end(    k, last, furthest) {
    last = 0
    furthest = 0
    for (k = 0; k < segments; k++) {
        if (start[k] + len[k] > last) last = start[k] + len[k]
        if (due[k] + 0 > furthest) furthest = due[k] + 0
    }
    # Where not all segments are shown, what comes after the last of them would squeeze them into nothing.
    if (!cut) for (k = 0; k < jobs; k++) {
        if (moment[k] + 0 > last) last = moment[k] + 0
        if (finish[k] != "open" && finish[k] + 0 > last) last = finish[k] + 0
    }
    reported = last
    # Deadlines that lie a little further on are taken in: more of them where there is little to draw.
    if (!cut && furthest > last && furthest <= last * (segments <= 40 ? 4 : 1.15)) last = furthest
    return last > 0 ? last : 1
}

# The step between labels, and between the finer lines.
function axis_steps(    k, count, list, least) {
    if (by_clock) {
        count = split("60 300 600 1800 3600 7200 10800 21600 43200 86400 172800 604800", list, " ")
        for (k = 1; k < count && list[k] * scale < 72; k++);
        step = list[k] + 0
        fine = step == 43200 || step == 86400 ? 21600 : step == 172800 || step == 604800 ? 86400 : step == 21600 ? 7200 : step / 2
    } else {
        least = wide(grouped(end), 11.5) + 24
        step = 1
        while (step * scale < least) {
            step *= 2; fine = step / 2
            if (step * scale < least) { step = step / 2 * 5; fine = step / 5 }
            if (step * scale < least) { step = step * 2; fine = step / 5 }
        }
        if (step == 1) fine = 1
    }
    if (fine * scale < 8) fine = step
}

function draw_axis(top, bottom,    t, label) {
    for (t = 0; t <= end; t += fine)
        if (t % step) printf "<path class=\"f\" d=\"M%.1f %.1fV%.1f\"/>\n", x(t), top, bottom
    for (t = 0; t <= end; t += step) {
        printf "<path class=\"g\" d=\"M%.1f %.1fV%.1f\"/>\n", x(t), top - 4, bottom + 4
        label = by_clock ? clock(t) : grouped(t)
        if (by_clock && t % 86400) sub(/^day [0-9,]+ /, "", label)
        if (step >= 86400) sub(/ 00:00$/, "", label)
        text_at(x(t), top - 10, by_clock && t % 86400 == 0 ? "xd" : "x", label)
        text_at(x(t), bottom + 18, by_clock && t % 86400 == 0 ? "xd" : "x", label)
    }
}

# ---- The lanes

function colour_of(s) { return colour[s % colours] }
function ink_of(s) { return ink[s % colours] }
function thin_of(s) { return thin[s % colours] }

function bar(k, top, height, what,    from, width) {
    from = x(start[k])
    width = len[k] * scale
    # Neighbours under different deadlines are told apart by a thin gap, where a bar is wide enough to give it.
    if (width > 4) { from += 0.4; width -= 0.8 }
    if (width < 1) width = 1
    printf "<rect x=\"%.1f\" y=\"%.1f\" width=\"%.1f\" height=\"%.1f\" fill=\"%s\">%s</rect>\n", from, top, width, height, colour_of(of[k]), remark(what)
}

function segment_words(k) {
    return "segment " grouped(k) ": server " of[k] ", " moment_words(start[k]) " to " moment_words(start[k] + len[k]) ", deadline " moment_words(due[k])
}

function node_lane(top,    k, busy, label) {
    text_at(24, top + 20, "n", "the node")
    busy = 0
    for (k = 0; k < segments; k++) {
        bar(k, top + 8, 22, segment_words(k))
        busy += len[k]
        label = of[k] ""
        if (len[k] * scale > wide(label, 11) + 6) printf "<text x=\"%.1f\" y=\"%.1f\" class=\"l\" style=\"fill:%s\">%s</text>\n", x(start[k] + len[k] / 2), top + 23, ink_of(of[k]), label
    }
    text_at(100, top + 20, "d", "busy for " many(sprintf("%.0f", busy), "tick", "ticks") (cut ? " so far" : ""))
}

# Whether most deadlines of a server lie so close together that flags and links would make one band.
function crowded(s,    i, close_by, distinct) {
    close_by = distinct = 0
    for (i = 1; i < runs[s]; i++)
        if (due[run_of[s, i]] != due[run_of[s, i - 1]]) {
            distinct++
            if ((due[run_of[s, i]] - due[run_of[s, i - 1]]) * scale < 4) close_by++
        }
    return 2 * close_by > distinct
}

# The links of a server's deadlines, from the end of the first segment under each to its flag or to the edge: how many
# levels they need so that no two lie on one line, and the level of each (-1: there is none left, which needs more than
# a lane has room for). A server's deadlines never go back, so the segments of one deadline follow each other, and a link
# that begins later ends later; each takes the next level below the last one that is free, so that few of them cross.
function link_levels(s,    i, k, from, to, n, d, busy, next_level, try, level, until) {
    group_count[s] = 0
    levels[s] = 0
    if (crowded(s)) return
    for (i = 0; i < runs[s]; i++) {
        k = run_of[s, i]
        if (i && due[k] == due[run_of[s, i - 1]]) continue
        n = group_count[s]++
        from[n] = x(start[k] + len[k])
        to[n] = (due[k] + 0 <= end ? x(due[k]) : right + 8) + 3
    }
    # The most links that are side by side at any place.
    d = 0
    for (n = 0; n < group_count[s]; n++) {
        while (d < n && to[d] < from[n]) d++
        if (n - d + 1 > levels[s]) levels[s] = n - d + 1
    }
    if (levels[s] > most_levels) levels[s] = most_levels
    next_level = 0
    for (n = 0; n < group_count[s]; n++) {
        busy = 0
        for (try = 0; try < levels[s]; try++) if (try in until && until[try] >= from[n]) busy++
        if (!busy) next_level = 0
        level_of[s, n] = -1
        for (try = 0; try < levels[s] && level_of[s, n] < 0; try++) {
            level = (next_level + try) % levels[s]
            if (level in until && until[level] >= from[n]) continue
            level_of[s, n] = level
            until[level] = to[n]
            next_level = level + 1
        }
    }
}

# The deadlines of a server: a flag at each, linked to the ends of the segments that ran under it; a tick alone where
# they are crowded.
function draw_deadlines(s, top,    ticks, i, k, n, level, at, group, from, path, next_x, label, px, words) {
    far = unlinked = furthest = 0
    ticks = crowded(s)
    n = 0
    for (i = 0; i < runs[s]; i = group) {
        k = run_of[s, i]
        words = "server " s ", deadline " moment_words(due[k])
        level = ticks ? -1 : level_of[s, n++]
        if (!ticks && level < 0) unlinked++
        level = level < 0 ? -1 : top + links + level_step * level
        path = ""
        for (group = i; group < runs[s] && due[run_of[s, group]] == due[k]; group++) {
            at = x(start[run_of[s, group]] + len[run_of[s, group]])
            if (group == i) from = at
            path = path sprintf("M%.1f %.1fV%.1f", at, top + bar_top, level)
        }
        if (due[k] + 0 > end) { far++; furthest = due[k] }
        if (ticks) {
            if (due[k] + 0 <= end) printf "<path class=\"k\" stroke=\"%s\" stroke-width=\".6\" d=\"M%.1f %.1fv6\">%s</path>\n", thin_of(s), x(due[k]), top + bar_top - 8, remark(words)
        } else if (due[k] + 0 <= end) {
            px = x(due[k])
            if (level >= 0) printf "<path class=\"k\" stroke=\"%s\" d=\"%sM%.1f %.1fH%.1f\">%s</path>\n", thin_of(s), path, from, level, px, remark(words)
            deadline_mark(px, top + 2, level < 0 ? top + links : level, top + bar_top + bar_height, thin_of(s), words)
            next_x = group < runs[s] ? x(due[run_of[s, group]]) : width - 4
            label = by_clock ? clock(due[k]) : grouped(due[k])
            if (roomy && next_x - px > wide(label, 9.5) + 14) text_at(px + 9, top + 9, "s", label)
        } else if (level >= 0) printf "<path class=\"k\" stroke=\"%s\" d=\"%sM%.1f %.1fH%.1fl-4 -1.6m4 1.6l-4 1.6\">%s</path>\n", thin_of(s), path, from, level, right + 8, remark(words)
    }
}

# The places of a row that are written on.
function take(from, to) { taken_from[taken] = from; taken_to[taken++] = to }
function is_free(from, to,    i) {
    for (i = 0; i < taken; i++) if (from < taken_to[i] && to > taken_from[i]) return 0
    return 1
}

# Job numbers under a lane's arrivals: as words where all of them have the room, else as many numbers as have it, open
# jobs and the longest response first.
function arrival_labels(s, py, longest_job,    i, k, px, half, label, words, together, first, round) {
    words = 1
    for (i = 1; i < brought[s]; i++)
        if (x(moment[job_of[s, i]]) - x(moment[job_of[s, i - 1]]) < wide("job " job_of[s, i], 9.5) + 12 && moment[job_of[s, i]] != moment[job_of[s, i - 1]]) words = 0
    for (round = 1; round <= 2; round++)
        for (i = 0; i < brought[s]; i = together) {
            k = job_of[s, i]
            px = x(moment[k])
            first = 0
            for (together = i; together < brought[s] && moment[job_of[s, together]] == moment[k]; together++)
                if (finish[job_of[s, together]] == "open" || job_of[s, together] == longest_job) first = 1
            if (moment[k] + 0 > end) break
            if (first != (round == 1)) continue
            label = (words ? "job " : "") k (together > i + 1 ? " +" together - i - 1 : "")
            half = wide(label, 9.5) / 2
            if (!is_free(px - half, px + half)) continue
            text_at(px, py, "m", label)
            take(px - half - 2, px + half + 2)
        }
}

function response_words(k) { return "job " k ": response " length_words(response[k]) }

# The label of a server's longest response: beside its finish; else at the nearest place beside the finishes around it,
# with a line that leads there. Where it goes, or 0 for nowhere. There are n finishes, at fx.
function longest_place(i, n, w, limit,    j, from, to) {
    if (room_beside(i, n, limit) > w) return beside(i)
    for (j = i + 1; j < n && fx[j] - fx[i] < 150; j++) if (room_beside(j, n, limit) > w) return beside(j)
    for (j = i - 1; j >= -1 && fx[i] - fx[j + 1] < 150; j--) {
        to = fx[j + 1] - mark * 0.5 - 4
        from = j < 0 ? left + 4 : beside(j)
        if (to - from > w) return to - w
    }
    return 0
}

# Where a label beside a finish begins, and the room that it has before the next one.
function beside(i) { return fx[i] + mark * 0.65 + 3 }
function room_beside(i, n, limit) { return (i + 1 < n ? fx[i + 1] - mark * 0.5 - 2 : limit) - beside(i) }

function draw_labels(s, line, n, limit,    i, k, w, at, height, longest_job, best, round, fits, full, label) {
    taken = 0
    longest_job = -1
    for (i = 0; i < n; i++) if (longest_job < 0 || response[finish_job[i]] + 0 > response[longest_job] + 0) { best = i; longest_job = finish_job[i] }
    unplaced = ""
    if (longest_job >= 0) {
        # In full, else shorter; the lowest lanes have no row below the line for it, and there the response alone will do.
        at = 0
        for (round = 1; round <= (lane > 60 ? 2 : 3) && !at; round++) {
            label = round == 1 ? response_words(longest_job) : (round == 2 ? "job " longest_job ", " : "") length_words(response[longest_job])
            w = wide(label, 9.5)
            at = longest_place(best, n, w, limit)
        }
        height = line - mark * 1.05 - 2
        if (at == beside(best)) text_at(at, line - 3, "s", label)
        else if (at > fx[best]) {
            printf "<path class=\"e\" d=\"M%.1f %.1fV%.1fH%.1f\"/>\n", fx[best] + mark * 0.65, height + 2, height, at - 3
            text_at(at, height + 3.4, "s", label)
        } else if (at > 0) {
            printf "<path class=\"e\" d=\"M%.1f %.1fV%.1fH%.1f\"/>\n", fx[best] + mark * 0.65, height + 2, height, at + w + 3
            printf "<text x=\"%.1f\" y=\"%.1f\" class=\"s\" text-anchor=\"end\">%s</text>\n", at + w, height + 3.4, label
        } else unplaced = response_words(longest_job)
        if (at > fx[best]) take(fx[best], at + w + 4); else if (at > 0) take(at - 4, fx[best] + 8)
    }
    # The others where they have the room: in full where that leaves none out, else the response alone.
    if (roomy) for (round = 0; round < 3; round++) {
        if (round == 2) full = fits[0] == fits[1]
        else { full = round == 0; fits[round] = 0 }
        for (i = 0; i < n; i++) {
            k = finish_job[i]
            if (k == longest_job) continue
            label = full ? response_words(k) : length_words(response[k])
            w = wide(label, 9.5)
            if (room_beside(i, n, limit) < w + 2 || !is_free(beside(i), beside(i) + w)) continue
            if (round < 2) fits[round]++; else text_at(beside(i), line - 3, "s", label)
        }
    }
    return longest_job
}

function draw_jobs(s, top,    usual, i, k, line, px, from, to, label, opened, later_open, first_open, name, n, longest_job, w) {
    line = top + job_line
    opened = later_open = n = 0
    # Smaller marks where arrivals come so close that they would lie on each other.
    usual = mark
    for (i = 1; i < brought[s]; i++)
        if (moment[job_of[s, i]] != moment[job_of[s, i - 1]] && (moment[job_of[s, i]] - moment[job_of[s, i - 1]]) * scale < mark * 1.2) { mark = 5; break }
    # A line from arrival to finish for each job; where they touch they are one.
    from = to = -1
    for (i = 0; i < brought[s]; i++) {
        k = job_of[s, i]
        if (finish[k] == "open" || moment[k] + 0 > end) continue
        if (moment[k] + 0 > to) {
            if (to >= 0) printf "<path class=\"j\" d=\"M%.1f %.1fH%.1f\"/>\n", x(from), line, x(to)
            from = moment[k] + 0
        }
        to = finish[k] + 0 > end ? end : finish[k] + 0
    }
    if (to >= 0) printf "<path class=\"j\" d=\"M%.1f %.1fH%.1f\"/>\n", x(from), line, x(to)

    for (i = 0; i < brought[s]; i++) {
        k = job_of[s, i]
        name = "job " grouped(k) " of server " s
        px = x(moment[k])
        if (finish[k] == "open") {
            if (moment[k] + 0 > end) { later_arrivals++; later_open++; continue }
            if (!opened++) {
                first_open = k
                printf "<path class=\"u\" d=\"M%.1f %.1fH%.1f\"/>\n", px, line, x(reported)
            }
            arrival_mark(px, line, "r", name " arrives at " moment_words(moment[k]) " and is open when the run stops")
            continue
        }
        if (moment[k] + 0 <= end) arrival_mark(px, line + 0.7, "a", name " arrives at " moment_words(moment[k])); else later_arrivals++
        if (finish[k] + 0 > end) { later_finishes++; continue }
        fx[n] = x(finish[k])
        finish_job[n] = k
        finish_mark(fx[n++], line, name " finishes at " moment_words(finish[k]) ", response " length_beside(response[k]))
    }
    # Labels go into the margin where nothing stands there beside them.
    longest_job = draw_labels(s, line, n, cut || unlinked || far && !roomy ? right : opened ? x(reported) - 8 : width - 4)
    # The row below the line. An open job goes on to where the run stops, which is further on where segments are left out.
    taken = 0
    if (opened) {
        label = opened == 1 ? "job " first_open " open" : grouped(opened) " jobs open"
        if (later_open) label = lane > 60 ? label ", " grouped(later_open) " more later" : grouped(opened + later_open) " open"
        # In bold, which is wider.
        w = wide(label, 12.4)
        open_mark(x(reported), line, (opened == 1 ? "job " first_open " open" : grouped(opened) " jobs open") " when the run stops" (cut ? ", which is further on than the segments shown" : ""))
        if (!cut && width - x(reported) > w + 14) {
            text_at(x(reported) + 9, line + (lane > 60 ? 12 : 4), "o", label)
            take(x(reported) + 6, x(reported) + 12 + w)
        } else {
            printf "<text x=\"%.1f\" y=\"%.1f\" class=\"o\" text-anchor=\"end\">%s</text>\n", x(reported) - 8, line + (lane > 60 ? mark + 10 : 11), label
            take(x(reported) - 12 - w, x(reported) - 4)
        }
    }
    if (lane > 60) {
        if (unplaced != "") {
            w = wide(unplaced, 9.5) / 2
            px = x(moment[longest_job])
            if (px - w < left) px = left + w
            if (px + w > right) px = right - w
            # It makes way for the label of the open jobs.
            if (!is_free(px - w, px + w)) px = taken_from[0] - w - 3
            if (is_free(px - w, px + w)) {
                text_at(px, line + mark + 10, "m", unplaced)
                take(px - w - 3, px + w + 3)
            }
        }
        arrival_labels(s, line + mark + 10, longest_job)
    }
    mark = usual
}

# What the report says of a server, beside its lane.
function draw_summary(s, top,    mean, opened, row) {
    printf "<rect x=\"8\" y=\"%.1f\" width=\"6\" height=\"%.1f\" fill=\"%s\"/>\n", top + bar_top, bar_height, colour_of(s)
    text_at(24, top + name_line, "n", "server " s)
    opened = arrived[s] - finished[s]
    text_at(100, top + name_line, "d", grouped(finished[s]) " of " many(arrived[s], "job", "jobs") " finished" (opened ? ", <tspan class=\"o\">" grouped(opened) " open</tspan>" : ""))
    row = top + name_line + line_step
    mean = total[s] == "-" ? "" : grouped(sprintf("%.1f", total[s] / finished[s]))
    if (mean == "") text_at(24, row, "d", "nothing finished, so no response")
    else if (roomy && by_clock) {
        text_at(24, row, "d", "mean response " mean " (" span(total[s] / finished[s]) ")")
        row += line_step
        text_at(24, row, "d", "longest " length_beside(longest[s]))
    } else if (lane > 60) text_at(24, row, "d", "mean response " mean ", longest " grouped(longest[s]))
    else text_at(24, row, "d", "mean " mean ", longest " grouped(longest[s]) ", postponed " grouped(postponed[s]))
    row += line_step
    if (lane > 60) text_at(24, row, "d", "postponed " grouped(postponed[s]) ", interrupted " grouped(interrupted[s]))
}

function server_lane(s, top,    i, k, label, row) {
    bar_top += extra[s]; job_line += extra[s]; name_line += int(extra[s] / 2)
    later_arrivals = later_finishes = 0
    draw_summary(s, top)
    draw_deadlines(s, top)
    for (i = 0; i < runs[s]; i++) {
        k = run_of[s, i]
        bar(k, top + bar_top, bar_height, segment_words(k))
        label = by_clock ? sprintf("%d:%02d", int(len[k] / 3600), int(len[k] % 3600 / 60)) : grouped(len[k])
        if (roomy && len[k] * scale > wide(label, 11) + 8)
            printf "<text x=\"%.1f\" y=\"%.1f\" class=\"l\" style=\"fill:%s\">%s</text>\n", x(start[k] + len[k] / 2), top + bar_top + bar_height / 2 + 4, ink_of(s), label
    }
    draw_jobs(s, top)
    margin_notes(top)
    bar_top -= extra[s]; job_line -= extra[s]; name_line -= int(extra[s] / 2)
}

# What lies beyond the axis is told in the margin, deadlines with how far they go; and links that found no level.
function margin_notes(top,    row, words, count, list, k, later, until) {
    later = later_arrivals + later_finishes
    until = (far == 1 ? "at " : "to ") (by_clock ? clock(furthest) : grouped(furthest))
    if (right + 12 + wide(until, 9.5) > width) sub(/ [0-9:]+$/, "|&", until)
    words = ""
    if (far) words = many(far, "deadline", "deadlines") (!later && lane > 60 ? "|further on," : "") (!later || lane > 60 ? "|" until : "")
    if (later_arrivals) words = words "|" many(later_arrivals, "arrival", "arrivals")
    if (later_finishes) words = words "|" many(later_finishes, "finish", "finishes")
    if (later && lane > 60) words = words "|further on"
    if (unlinked && lane > 60) words = words "|" many(unlinked, "link", "links") " left out"
    sub(/^[|]/, "", words)
    count = split(words, list, "|")
    row = top + (roomy ? 24 : 14)
    for (k = 1; k <= count; k++) { text_at(right + 12, row, "s", list[k]); row += 11 }
}

function draw_legend(top,    px) {
    px = 24
    printf "<rect x=\"%d\" y=\"%.1f\" width=\"30\" height=\"12\" fill=\"%s\"/>\n", px, top - 10, colour[0]
    text_at(px + 38, top, "p", "a segment: the server has the processor")
    px += 345
    printf "<path class=\"k\" stroke=\"%s\" d=\"M%d %.1fV%.1fH%d\"/>\n", colour[0], px, top + 2, top - 7, px + 26
    deadline_mark(px + 26, top - 11, top + 3, 0, colour[0], "a deadline")
    text_at(px + 40, top, "p", "the deadline of the segments linked to it")
    px += 350
    arrival_mark(px, top - 9, "a", "an arrival")
    text_at(px + 12, top, "p", "a job arrives")
    px += 125
    finish_mark(px, top - 1, "a finish")
    text_at(px + 8, top - 4, "s", by_clock ? "25 min" : "25")
    px += by_clock ? 48 : 27
    text_at(px, top, "p", "it finishes, with this response")
    px += 222
    printf "<path class=\"j\" d=\"M%d %.1fh26\"/>\n", px, top - 4
    text_at(px + 34, top, "p", "it waits or runs")
    px += 165
    printf "<path class=\"u\" d=\"M%d %.1fh24\"/>\n", px, top - 4
    open_mark(px + 28, top - 4, "an open job")
    text_at(px + 40, top, "p", cut ? "open when the run stops, further on" : "open when the run stops")
    # The counts beside a lane, where it has room for them.
    if (lane > 60) text_at(24, top + 22, "p", "postponed: its budget was spent, and its deadline moved on; " \
        "interrupted: one of its segments ended before the run stopped, with work of it waiting, and another server had the very next tick")
}

END {
    if (failed) exit 1
    if (NR == 0) { print "day-chart: the report is empty" > "/dev/stderr"; exit 1 }
    lack = refused ? (ended == "no" ? "its last line has no end" : "") : missing()
    if (lack != "") { print "day-chart: the report is not whole: " lack > "/dev/stderr"; exit 1 }
    if (refused) { refused_picture(); exit 0 }

    # Paul Tol's muted colours, which the colour-blind can tell apart, the two lightest a little darker; the ink
    # to write on each; and the colour of its thin lines. From the tenth server on they come lighter, and then darker.
    split("#332288 #cc6677 #117733 #882255 #44aa99 #aa4499 #999933 #6db8e2 #cdb650 " \
        "#9990c3 #e5b2bb #88bb99 #c390aa #a1d4cc #d4a1cc #cccc99 #b6dbf0 #e6daa7 " \
        "#1f1452 #7a3d47 #0a471f #521433 #29665c #66295c #5c5c1f #416e88 #7b6d30", list, " ")
    split("#fff #222 #fff #fff #222 #fff #222 #222 #222", inks, " ")
    split("#332288 #cc6677 #117733 #882255 #2f8a7b #aa4499 #85852a #3f97c4 #b39a2c", lines, " ")
    colours = 27
    for (k = 0; k < colours; k++) {
        colour[k] = list[k + 1]
        ink[k] = k < 9 ? inks[k + 1] : k < 18 ? "#222" : "#fff"
        thin[k] = k < 18 ? lines[k % 9 + 1] : colour[k]
    }

    opened = 0
    for (k = 0; k < segments; k++) run_of[of[k], runs[of[k]]++] = k
    for (k = 0; k < jobs; k++) { job_of[owner[k], brought[owner[k]]++] = k; if (finish[k] == "open") opened++ }
    for (s = 0; s < servers; s++) { runs[s] += 0; brought[s] += 0; run_of[s, 0]; job_of[s, 0] }

    # Sizes: lanes get lower where there are many.
    cut = shown + 0 < told + 0
    end = axis_end()
    width = 1600
    left = 290
    right = width - 106
    scale = (right - left) / end
    by_clock = end >= 7200
    axis_steps()
    lane = servers <= 12 ? 92 : servers <= 24 ? 66 : 46
    roomy = lane > 80
    level_step = roomy ? 3.5 : 3
    most_levels = roomy ? 12 : 8
    if (roomy) { links = 13; bar_top = 23; bar_height = 22; job_line = 62; mark = 8; name_line = by_clock ? 26 : 32; line_step = 16 }
    else if (lane > 60) { links = 5; bar_top = 14; bar_height = 16; job_line = 43; mark = 7; name_line = 22; line_step = 15 }
    else { links = 3; bar_top = 11; bar_height = 12; job_line = 34; mark = 6; name_line = 19; line_step = 15 }

    head = 150 + (cut ? 24 : 0)
    top = head
    # A lane gets as much higher as its links need beyond three levels.
    bottom = top + 40
    for (s = 0; s < servers; s++) {
        link_levels(s)
        extra[s] = levels[s] > 3 ? int((levels[s] - 3) * level_step + 0.5) : 0
        lane_top[s] = bottom
        bottom += lane + extra[s]
    }
    height = bottom + 40

    open_picture(width, height, "Day report: admitted " grouped(admitted) " of " grouped(frame))
    text_at(24, 40, "h", "Day report: admitted " grouped(admitted) " of " grouped(frame))
    text_at(24, 64, "p", many(servers, "server", "servers") " with " sprintf("%.1f", 100 * admitted / frame) " % of the node booked; " \
        many(jobs, "job", "jobs") ", " grouped(jobs - opened) " finished, " grouped(opened) " open; " many(told, "segment", "segments") \
        (by_clock ? ". By the clock, one tick is one second." : ". Time in ticks.") \
        (servers > colours ? " Colours come again after " colours " servers: point at a segment to see its server." : ""))
    if (cut) text_at(24, 88, "w", "The report shows the first " grouped(shown) " of " grouped(told) " segments: the axis ends with the last one shown, and what comes later is counted at the right.")
    draw_legend(head - 54)

    # Lanes by turns on a light ground, and darker where nothing but deadlines is left to show.
    for (s = 0; s < servers; s += 2) printf "<rect x=\"0\" y=\"%.1f\" width=\"%d\" height=\"%d\" fill=\"#f7f7f5\"/>\n", lane_top[s], width, lane + extra[s]
    if (reported < end && segments + jobs) printf "<rect x=\"%.1f\" y=\"%.1f\" width=\"%.1f\" height=\"%.1f\" fill=\"#e9e9e6\" fill-opacity=\".7\">%s</rect>\n", x(reported), top, right - x(reported), bottom - top, remark("after the last segment, arrival and finish of the report")
    draw_axis(top, bottom)
    printf "<path class=\"b\" d=\"M%.1f %.1fH%.1fM%.1f %.1fH%.1f\"/>\n", left, top, right, left, bottom, right
    node_lane(top)
    if (!segments) text_at(left + 12, top + 23, "d", "nothing runs")
    if (right - x(reported) > 230 && segments + jobs) text_at(x(reported) + 12, top + 23, "d", "nothing is reported here but deadlines")
    for (s = 0; s < servers; s++) server_lane(s, lane_top[s])
    print "</svg>"
}
