#!/bin/sh
# Times `strip` of the built program over chains of calls in one class, along the order of the methods and against it (./build makes the
# program). It is no test: it prints the status, the lines of what is reached, the seconds of processor time and the greatest memory in
# megabytes.
set -eu
. "$(dirname "$0")/program.sh"

# A chain of calls through the first methods, from the first to the last (forth) or back, and other methods behind them. Their names are
# hexadecimal numbers from a00000 on.
methods() {
    awk -v chain="$1" -v others="$2" -v way="$3" 'BEGIN {
        printf "Object subclass: #A\n\tinstanceVariableNames: '"''"'\n\tclassVariableNames: '"''"'\n\tpoolDictionaries: '"''"'\n\tcategory: '"'T'"'!\n\n!A methodsFor: '"'m'"'!\n"
        for (n = 0; n < chain + others; n++) {
            other = (way == "forth" ? n + 1 : n - 1)
            body = (n < chain && other >= 0 && other < chain ? sprintf("self %x", other + 10485760) : "0")
            printf "%x ^%s!%s\n\n", n + 10485760, body, (n == chain + others - 1 ? " !" : "")
        }
    }'
}

for counts in '4000 0' '4000 195000' '180000 0'; do
    for way in forth back; do
        set -- $counts
        methods "$1" "$2" "$way" > "$folder/chain.st"
        start=$((10485760 + $1 - 1))
        if [ "$way" = forth ]; then start=10485760; fi
        status=0
        /usr/bin/env time -f '%U %S %M' -o "$folder/times" "$program" strip "$folder/chain.st" "A new $(printf %x "$start")" sets > "$folder/out" || status=$?
        tail -n 1 "$folder/times" | awk -v name="$1 in a chain, $2 others, $way" -v status="$status" -v lines="$(wc -l < "$folder/out")" \
            '{ printf "%-40s status %d  %d lines  %.2f s  %d MB\n", name, status, lines, $1 + $2, $3 / 1024 }'
    done
done
