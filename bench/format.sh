#!/bin/sh
# Makes large file-outs in a folder of its own and times `format` of the built program on each (./build makes it). It is no test:
# it prints the machine, and then, for each input, its bytes, the status, the seconds of processor time and the greatest memory
# in megabytes.
set -eu
. "$(dirname "$0")/program.sh"
most=4194304
# With the twenty classes of the kernel these are as many as there may be.
classes=9980

awk -F ': *' '
    /^model name/ { model = $2 }
    /^processor/ { processors++ }
    /^MemTotal/ { memory = $2 }
    END { printf "%s, %d processors, %d MB of memory\n", model == "" ? "unknown processor" : model, processors, memory / 1024 }
' /proc/cpuinfo /proc/meminfo

# A class with methods of ordinary code, over and over, up to 4 MB.
awk -v most="$most" 'BEGIN {
    for (n = 1; size < most - 2000; n++) {
        text = "Object subclass: #Account" n "\n\tinstanceVariableNames: '"'balance owner'"'\n\tclassVariableNames: '"''"'\n\tpoolDictionaries: '"''"'\n\tcategory: '"'Bank'"'!\n\n"
        text = text "!Account" n " methodsFor: '"'accessing'"'!\nbalance\n\t\"What is on the account.\"\n\t^balance! !\n\n"
        text = text "!Account" n " methodsFor: '"'moving'"'!\ndeposit: anAmount\n\tanAmount < 0 ifTrue: [^self error: '"'negative'"'].\n\tbalance := balance + anAmount.\n\t^self!\n\nwithdraw: anAmount ifAbsent: aBlock\n\t| rest |\n\trest := balance - anAmount.\n\trest < 0 ifTrue: [^aBlock value].\n\tbalance := rest.\n\t#(1 2 3) do: [:each | owner note: each]! !\n\n"
        size += length(text)
        printf "%s", text
    }
}' > "$folder/ordinary.st"
awk -v most="$most" 'BEGIN { for (n = 0; n < most; n++) printf " " }' > "$folder/blanks.st"
awk -v most="$most" 'BEGIN { for (n = 0; n < most; n++) printf "!" }' > "$folder/marks.st"
# Blank chunks, and nothing else.
awk -v most="$most" 'BEGIN { for (n = 0; n < most; n += 2) printf "! " }' > "$folder/chunks.st"
awk -v most="$most" 'BEGIN { printf "\""; for (n = 0; n < most - 6; n++) printf "c"; printf "\" 3!\n" }' > "$folder/comment.st"
awk -v most="$most" 'BEGIN {
    printf "Object subclass: #A instanceVariableNames: '"''"' classVariableNames: '"''"' poolDictionaries: '"''"' category: '"''"'!\n!A methodsFor: '"''"'!\ngo\n"
    for (n = 0; n < (most - 200) / 11; n++) printf "\tx foo: 1.\n"
    printf "! !\n"
}' > "$folder/method.st"
awk 'BEGIN {
    printf "Object subclass: #A instanceVariableNames: '"''"' classVariableNames: '"''"' poolDictionaries: '"''"' category: '"''"'!\n!A methodsFor: '"''"'!\n"
    for (n = 0; n < 100000; n++) printf "m%d ^%d!\n", n, n
    printf " !\n"
}' > "$folder/methods.st"
# As many methods of 42 bytes on the average, which fill 4 MB.
awk 'BEGIN {
    printf "Object subclass: #A instanceVariableNames: '"''"' classVariableNames: '"''"' poolDictionaries: '"''"' category: '"''"'!\n!A methodsFor: '"''"'!\n"
    for (n = 0; n < 100000; n++) printf "m%d\n\t^self foo: %d bar: #(1 22 3)!\n\n", n, n
    printf " !\n"
}' > "$folder/tiny.st"
# Classes that are defined twice. The first word is how they are defined for the first time, the second one how they are
# defined again: in chains of 100 (the last one has those that are left), below Object, in pairs, as one chain in which each is
# below the one before it, or below the one behind it, or pairs below the ones behind them; the third word is what is new the
# second time, or `one` where each class that is not the lower one of a pair has a variable of one name at first, or `once`
# where each was a superclass before that.
classes() {
    awk -v first="$1" -v second="$2" -v fresh="$3" -v classes="$classes" '
    function above(shape, n) {
        if (shape == "chains") return n % 100 == 0 ? "Object" : "C" (n - 1)
        if (shape == "chain") return n == 0 ? "Object" : "C" (n - 1)
        if (shape == "pairs") return n % 2 == 0 ? "Object" : "C" (n - 1)
        if (shape == "pairs-behind") return n == classes - 2 ? "Object" : "C" (n + 3)
        if (shape == "behind") return n == classes - 1 ? "Object" : "C" (n + 1)
        return "Object"
    }
    function defines(shape, n, variable, more) {
        printf "%s subclass: #C%d instanceVariableNames: '"'%s'"' classVariableNames: '"''"' poolDictionaries: '"''"' category: '"''"'%s!\n", above(shape, n), n, variable, more
    }
    BEGIN {
        if (fresh == "once") for (n = 0; n < classes; n++) defines("chain", n, "", "")
        for (n = 0; n < classes; n++)
            defines(first, n, fresh == "variable" || fresh == "variables" ? "v" n : fresh == "once" || fresh == "one" && (first != "pairs" || n % 2 == 0) ? "v" : "", "")
        if (second == "behind") for (n = classes - 1; n >= 0; n--) defines(second, n, "", "")
        else if (second == "pairs-behind") for (n = classes - 2; n >= 0; n -= 2) defines(second, n, "", "")
        else if (second != "none") for (n = 0; n < classes; n++)
            defines(second, n, fresh == "variable" ? "w" n : "", fresh == "place" ? " at: " (classes - n) : fresh == "mixed" && n % 2 ? " at: 1" : "")
    }'
}
classes chains chains none > "$folder/same.st"
classes chains object none > "$folder/lower.st"
classes chains chains variable > "$folder/variable.st"
classes chain none variables > "$folder/deep.st"
classes chain chain variable > "$folder/deeper.st"
classes object chain none > "$folder/chain.st"
classes object behind none > "$folder/behind.st"
classes object behind one > "$folder/worst.st"
classes object behind once > "$folder/once.st"
classes pairs pairs-behind one > "$folder/pairs.st"
classes object object place > "$folder/placed.st"
classes chains chains mixed > "$folder/mixed.st"
awk 'BEGIN {
    printf "Object subclass: #A instanceVariableNames: '"''"' classVariableNames: '"''"' poolDictionaries: '"''"' category: '"''"'!\n"
    for (n = 80000; n > 0; n--) printf "!A methodsFor: '"''"' at: %d!m%d ^1! !\n", n, n
}' > "$folder/places.st"

for name in ordinary blanks marks chunks comment method methods tiny same lower variable deep deeper chain behind worst once pairs placed mixed places; do
    file=$folder/$name.st
    status=0
    /usr/bin/env time -f '%U %S %M' -o "$folder/times" "$program" format "$file" > "$folder/out" || status=$?
    tail -n 1 "$folder/times" | awk -v name="$name" -v bytes="$(wc -c < "$file")" -v status="$status" \
        '{ printf "%-10s %8d bytes  status %d  %.2f s  %d MB\n", name, bytes, status, $1 + $2, $3 / 1024 }'
done
