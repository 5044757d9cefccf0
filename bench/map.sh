#!/bin/sh
# Whether docs/ARCHITECTURE.md is a map of crates.txt: each crate has its name in bold once, and stands once on the left of a line of the
# list, if it uses a crate; and nothing else stands there. Prints what differs, and ends with 1 if anything does.
cd "$(dirname "$0")/.." || exit 1
awk '
    function name_of(part) { gsub(/[ `*]/, "", part); return part }
    FNR == NR {
        sub(/#.*/, "")
        if (!index($0, ":")) next
        split($0, sides, ":")
        split(sides[1], words, " ")
        crate = words[1]
        uses[crate] = sides[2]
        next
    }
    /^[a-z0-9_, ]+ ─ / {
        split($0, sides, " ─ ")
        count = split(sides[1], names, ",")
        for (i = 1; i <= count; i++) listed[name_of(names[i])]++
        count = split(sides[2], names, ",")
        for (i = 1; i <= count; i++) used[name_of(names[i])]++
        next
    }
    { rest = $0
      while (match(rest, /\*\*`[a-z0-9_]+`\*\*/)) {
          named[name_of(substr(rest, RSTART, RLENGTH))]++
          rest = substr(rest, RSTART + RLENGTH)
      } }
    END {
        bad = 0
        for (crate in uses) {
            if (named[crate] != 1) { print crate ": in bold " named[crate] + 0 " times"; bad = 1 }
            wanted = 0
            count = split(uses[crate], words, " ")
            for (i = 1; i <= count; i++) if (words[i] in uses) wanted = 1
            if (listed[crate] != wanted) { print crate ": on the left of the list " listed[crate] + 0 " times, and not " wanted; bad = 1 }
        }
        for (name in named) if (!(name in uses)) { print name ": in bold, and no crate"; bad = 1 }
        for (name in listed) if (!(name in uses)) { print name ": on the left of the list, and no crate"; bad = 1 }
        for (name in used) if (!(name in uses)) { print name ": on the right of the list, and no crate"; bad = 1 }
        exit bad
    }' crates.txt docs/ARCHITECTURE.md
