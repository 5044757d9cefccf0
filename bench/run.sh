#!/bin/sh
# Times `run` of the built program over loops that take all the ticks that a run may have (./build makes the program). It is no test: it
# prints, for each loop, the status, the seconds of processor time, the nanoseconds a tick and the greatest memory in megabytes.
set -eu
. "$(dirname "$0")/program.sh"
ticks=${1:-10000000}

# A chain of ten classes with one method each, and at its foot two more: one sets a class variable of the uppermost class, one goes ever deeper.
awk 'BEGIN {
    above = "Object"
    for (n = 1; n <= 10; n++) {
        printf "%s subclass: #C%d instanceVariableNames: '"'v%d'"' classVariableNames: '"'S%d'"' poolDictionaries: '"''"' category: '"'B'"'!\n", above, n, n, n
        printf "!C%d methodsFor: '"'b'"'!\nm%d: x\n\t| t |\n\tt := x + 1.\n\tv%d := t.\n\t^t! !\n", n, n, n
        above = "C" n
    }
    printf "!C10 methodsFor: '"'b'"'!\nvalueAt: x\n\tS1 := x.\n\t^self!\n\ndown: x\n\t^self down: x + 1! !\n"
}' > "$folder/image.st"

while IFS='|' read -r name expression; do
    status=0
    /usr/bin/env time -f '%U %S %M' -o "$folder/times" "$program" run "$folder/image.st" "$expression" "$ticks" > "$folder/out" || status=$?
    tail -n 1 "$folder/times" | awk -v name="$name" -v ticks="$ticks" -v status="$status" -v end="$(tail -n 1 "$folder/out")" \
        '{ printf "%-10s status %d  %.2f s  %.0f ns a tick  %d MB  %s\n", name, status, $1 + $2, ($1 + $2) * 1e9 / ticks, $3 / 1024, end }'
done <<'END'
numbers|| i | i := 0. [true] whileTrue: [i := i + 1]
sends|| c i | c := C10 new. i := 0. [true] whileTrue: [i := c m10: i]
inherited|| c i | c := C10 new. i := 0. [true] whileTrue: [i := c m1: i]
shared|| c | c := C10 new. [true] whileTrue: [c valueAt: 1]
blocks|| b i | b := [:x | x + 1]. i := 0. [true] whileTrue: [i := b value: i]
closures|| i | i := 0. [true] whileTrue: [i := [:x | x + 1] value: i]
deep|| b | b := nil. b := [:n | b value: n + 1]. b value: 0
deeper|C10 new down: 0
texts|| s | s := 'abc'. [true] whileTrue: [s = 'abd']
long|| s | s := 'a'. [true] whileTrue: [s := s , s. s size > 30000 ifTrue: [s := 'a']]
arrays|[true] whileTrue: [#(1 2 #(3 4) $a foo)]
output|[true] whileTrue: [Transcript show: 'abc']
END
