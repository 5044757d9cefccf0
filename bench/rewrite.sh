#!/bin/sh
# Times `search` and `rewrite` of the built program over 4 MB of methods that are 190 blocks, each in the one before it (./build makes the
# program). It is no test: it prints the status, the bytes of the answer, the seconds of processor time and the greatest memory in
# megabytes.
set -eu
. "$(dirname "$0")/program.sh"

# so many blocks around a body
blocks() {
    awk -v count="$1" -v body="$2" 'BEGIN { for (n = 0; n < count; n++) printf "["; printf "%s", body; for (n = 0; n < count; n++) printf "]" }'
}

awk -v code="$(blocks 190 '')" 'BEGIN {
    printf "Object subclass: #A\n\tinstanceVariableNames: '"''"'\n\tclassVariableNames: '"''"'\n\tpoolDictionaries: '"''"'\n\tcategory: '"'T'"'!\n\n!A methodsFor: '"'m'"'!\n"
    for (n = 0; n < 10400; n++) printf "m%d ^%s!%s\n\n", n, code, (n == 10399 ? " !" : "")
}' > "$folder/deep.st"

measure() {
    name=$1
    shift
    status=0
    /usr/bin/env time -f '%U %S %M' -o "$folder/times" "$program" "$@" > "$folder/out" || status=$?
    tail -n 1 "$folder/times" | awk -v name="$name" -v status="$status" -v bytes="$(wc -c < "$folder/out")" \
        '{ printf "%-50s status %d  %d bytes  %.2f s  %d MB\n", name, status, bytes, $1 + $2, $3 / 1024 }'
}

measure 'a pattern of 189 blocks' search "$folder/deep.st" "$(blocks 189 '`.@body')"
measure 'a doubled list in a block' search "$folder/deep.st" '[``.@body]'
measure 'each block by itself' rewrite "$folder/deep.st" '[``.@body]' '[`.@body]'
