# The tables of bench/run, from its lines: what was measured (times, counts, heap), then the fields that bench.c writes:
#   family, size, module, items, options, entries, answer, rounds, options left,
#   and   times: samples, ours, the Rust's, in microseconds     counts: instructions of ours, the Rust's, the Rust's without giving memory back
#         heap: how often ours asks for memory, how often the Rust does, bytes that the Rust asks for
BEGIN { FS = "\t" }

{
    key = $2 FS $3
    if (!(key in entries)) {
        keys[++count] = key
        if ($3 == 0) names[++families] = $2
        module[key] = $4; items[key] = $5; options[key] = $6; entries[key] = $7
        answer[key] = $8; rounds[key] = $9; left[key] = $10
    }
}
$1 == "times" { ours[key] = $12; rust[key] = $13; timed = 1 }
$1 == "counts" { our_count[key] = $11; rust_count[key] = $12; kept_count[key] = $13; counted = 1 }
$1 == "heap" { our_asks += $11; rust_asks[key] = $12; rust_bytes[key] = $13 }

function thousands(x, s) {
    s = sprintf("%d", x)
    while (match(s, /[0-9][0-9][0-9][0-9](,|$)/)) s = substr(s, 1, RSTART) "," substr(s, RSTART + 1)
    return s
}

function ratio(a, b) { return b > 0 ? sprintf("%.2f", a / b) : "-" }

# The ratios of a family at its three sizes.
function ratios(a, b, name) { return ratio(a[name FS 0], b[name FS 0]) " · " ratio(a[name FS 1], b[name FS 1]) " · " ratio(a[name FS 2], b[name FS 2]) }

# The power of the count of entries by which `list` grows, from the smallest size to the largest.
function power(list, name, a, b) {
    a = name FS 0
    b = name FS 2
    return list[a] > 0 ? sprintf("%.2f", log(list[b] / list[a]) / log(entries[b] / entries[a])) : "-"
}

# The highest ratio, and where it is.
function worst(a, b, k, most, at) {
    for (k = 1; k <= count; k++)
        if (b[keys[k]] > 0 && a[keys[k]] / b[keys[k]] > most) {
            most = a[keys[k]] / b[keys[k]]
            at = keys[k]
        }
    split(at, part, FS)
    return sprintf("%.2f (%s, %s entries)", most, part[1], thousands(entries[at]))
}

function by_family(k, name) {
    print "| Family | Entries, three sizes | Time, ours / Rust | Instructions, ours / Rust | Growth, ours | Growth, Rust |"
    print "|---|---|---|---|---|---|"
    for (k = 1; k <= families; k++) {
        name = names[k]
        printf "| %s | %s · %s · %s |", name, thousands(entries[name FS 0]), thousands(entries[name FS 1]), thousands(entries[name FS 2])
        printf " %s | %s |", ratios(ours, rust, name), ratios(our_count, rust_count, name)
        if (timed) print " " power(ours, name) " | " power(rust, name) " |"
        else print " " power(our_count, name) " | " power(rust_count, name) " |"
    }
}

function by_problem(k, key, part) {
    print "| Family | Items | Options | Entries | Module | Answer | Rounds | Options left | Ours, µs | Rust, µs | Ours, instructions | Rust, instructions | Rust, allocations |"
    print "|---|---|---|---|---|---|---|---|---|---|---|---|---|"
    for (k = 1; k <= count; k++) {
        key = keys[k]
        split(key, part, FS)
        printf "| %s | %s | %s | %s | %s |", part[1], thousands(items[key]), thousands(options[key]), thousands(entries[key]), module[key]
        printf " %s | %s | %s |", answer[key], thousands(rounds[key]), thousands(left[key])
        if (timed) printf " %.1f | %.1f |", ours[key], rust[key]
        else printf " - | - |"
        if (counted) print " " thousands(our_count[key]) " | " thousands(rust_count[key]) " | " thousands(rust_asks[key]) ", " thousands(rust_bytes[key]) " bytes |"
        else print " - | - | - |"
    }
}

END {
    by_family()
    print ""
    by_problem()
    print ""
    if (timed) print "Highest ratio of times: " worst(ours, rust) "."
    if (counted) {
        print "Highest ratio of instructions: " worst(our_count, rust_count) "; " worst(our_count, kept_count) " against the Rust without giving its memory back."
        print "Allocations of ours, in all problems together: " our_asks "."
    }
}
