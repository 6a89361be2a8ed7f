# Two files of lines, who was asked, the case and a number, with tabs between them: instructions, then nanoseconds. Prints the rows of
# docs/SPEED.md, how many cases lie within which ratio, and the worst: to the floor, where cases have one, and at the end to Rust.
BEGIN { FS = "\t" }
part == 1 { count[$1, $2] = $3; if ($1 == "Rust") name[++names] = $2; if ($1 == "floor") low[++floors] = $2; next }
{ time[$1, $2] = $3 / 1000; timed++ }
function microseconds(t) { return sprintf(t < 1 ? "%.3f" : t < 100 ? "%.1f" : "%.0f", t) }
function ratio(r) { return sprintf(r < 0.095 ? "%.3f" : "%.2f", r) }
function within(title, of,    i, k, limit, some) {
    printf "ratios of %s:", title
    for (k = split("2 1.2 1 0.35 0.2", limit, " "); k >= 1; k--) {
        some = 0
        for (i = 1; i <= names; i++) some += of["archive", name[i]] / of["Rust", name[i]] <= limit[k]
        printf " %d at most %s,", some, limit[k]
    }
    printf " of %d\n", names
}
function worst(title, of, under, cases, many,    i, r, most, at) {
    for (i = 1; i <= many; i++) if ((r = of["archive", cases[i]] / of[under, cases[i]]) > most) { most = r; at = cases[i] }
    printf "%s %.3f %s\n", title, most, at
}
function counts(asked, who) { return " " count[who, asked] " |" }
function rest(asked, under) {
    return " " ratio(count["archive", asked] / count[under, asked]) " | " microseconds(time[under, asked]) " | " microseconds(time["archive", asked]) " | " \
        ratio(time["archive", asked] / time[under, asked]) " |"
}
function head(columns, under) {
    print "\n| Case |" columns " ratio | " under ", µs | " function_name ", µs | ratio of times |\n|---|" (under == "floor" ? "---|" : "") "---|---|---|---|---|---|"
}
END {
    if (!names || timed != 2 * names + floors) { print timed + 0 " times for " names + 0 " cases" >"/dev/stderr"; exit 1 }
    head(" Rust | " function_name " |", "Rust")
    for (i = 1; i <= names; i++) print "| " name[i] " |" counts(name[i], "Rust") counts(name[i], "archive") rest(name[i], "Rust")
    if (floors) head(" Rust | floor | " function_name " |", "floor")
    for (i = 1; i <= floors; i++) print "| " low[i] " |" counts(low[i], "Rust") counts(low[i], "floor") counts(low[i], "archive") rest(low[i], "floor")
    print ""
    within("times", time)
    worst("worst time", time, "Rust", name, names)
    within("instructions", count)
    if (floors) worst("floor", count, "floor", low, floors)
    worst("worst", count, "Rust", name, names)
}
