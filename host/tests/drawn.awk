# What a picture of `trace draw` shows, worked out from its places and from the numbers at its ticks: for each panel a line
# for each column (panel, column, least, greatest, and the time of its point, of its middle where it is a line, or of its
# left edge where it is a step), and a line `panel` with the panel, the columns, how many of them are at
# the rail, the time of the trigger's line or `none`, the peak's time and value or `none`, and by how much a number may be
# off, which is a fiftieth of a unit of the picture: first of the values, then of the times.

# How much a number at a tick stands for: the axis is named `time (us)`, `value (1e-6 dB)` or `value`
function factor(name) {
    if (match(name, /\(1e-?[0-9]+/))
        return substr(name, RSTART + 1, RLENGTH - 1) + 0
    if (match(name, /\((f|p|n|µ|m|k|M|G|T)(V|A|s|HZ)\)/)) {
        name = substr(name, RSTART + 1)
        return name ~ /^f/ ? 1e-15 : name ~ /^p/ ? 1e-12 : name ~ /^n/ ? 1e-9 : name ~ /^µ/ ? 1e-6 : name ~ /^m/ ? 1e-3 : name ~ /^k/ ? 1e3 : name ~ /^M/ ? 1e6 : name ~ /^G/ ? 1e9 : 1e12
    }
    return 1
}

function attribute(name) {
    match($0, " " name "=\"[^\"]*\"")
    return substr($0, RSTART + length(name) + 3, RLENGTH - length(name) - 4)
}

function words() { sub(/<\/text>$/, ""); sub(/^<text[^>]*>/, ""); return $0 }

# The value at a height, and the time at a place, between the first tick and the last
function value(y) { return by_value * (number["v", 1] + (y - place["v", 1]) * (number["v", ticks["v"]] - number["v", 1]) / (place["v", ticks["v"]] - place["v", 1])) }
function time(x) { return by_time * (number["t", 1] + (x - place["t", 1]) * (number["t", ticks["t"]] - number["t", 1]) / (place["t", ticks["t"]] - place["t", 1])) }

function column(x, one, other) {
    left[columns] = x
    top[columns] = one < other ? one : other
    bottom[columns++] = one > other ? one : other
}

# The heights of the columns, in each of the three forms
function read_points(text,    i, n, part) {
    n = split(text, part, " ")
    for (i = 1; i < n; i += 2)
        column(part[i], part[i + 1], part[i + 1])
}

function read_uprights(text,    i, n, part, three) {
    n = split(text, part, /[ML]/)
    for (i = 2; i <= n; i++) {
        split(part[i], three, /[ V]/)
        column(three[1], three[2], three[3])
    }
}

function read_steps(text,    i, n, part, two) {
    sub(/Z$/, "", text)
    n = split(substr(text, 2), part, /[HV]/)
    split(part[1], two, " ")
    part[0] = two[1]
    part[1] = two[2]
    for (i = 0; i < n / 2; i += 2)
        column(part[i], part[i + 1], part[n - 1 - i])
}

/^<g class="panel">$/ { panel++; columns = rail = 0; trigger = peak = "none"; ticks["t"] = ticks["v"] = 0 }
/^<g class="times"/ { axis = "t" }
/^<g class="values"/ { axis = "v" }
/^<g class="dots"/ { axis = "dots" }
/^<\/g>$/ && axis != "" { axis = ""; next }
axis != "" && /^<text/ {
    place[axis, ++ticks[axis]] = axis == "t" ? attribute("x") : attribute("y") - 4
    number[axis, ticks[axis]] = words()
    next
}
/^<text[^>]*>time[ <]/ { by_time = factor(words()) }
/^<text[^>]*>value[ <]/ { by_value = factor(words()) }
/^<polyline class="signal"/ { read_points(attribute("points")) }
/^<path class="signal" fill="none"/ { read_uprights(attribute("d")) }
/^<path class="signal" fill="#/ { read_steps(attribute("d")) }
/^<path class="rail"/ { rail = gsub(/M/, "M", $0) }
/^<path class="trigger"/ { trigger = attribute("d"); sub(/^M/, "", trigger); trigger = time(trigger + 0) }
/^<circle class="peak"/ { peak = time(attribute("cx")) " " value(attribute("cy")) }
/^<\/g>$/ && axis == "" && columns > 0 {
    for (q = 0; q < columns; q++)
        printf "%d %d %.9g %.9g %.9g\n", panel, q, value(bottom[q]), value(top[q]), time(left[q])
    printf "panel %d %d %d %s %s %.9g %.9g\n", panel, columns, rail, trigger, peak, (value(0) - value(1)) / 50, (time(1) - time(0)) / 50
    columns = 0
}
