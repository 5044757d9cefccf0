#!/bin/sh
# Times `team` of the built program on 4 MB of code (./build makes the program): one session begins, proposes to rename a class and
# commits, 3,333 times over. It is no test: it prints the status, the seconds of processor time, the greatest memory in megabytes, and
# how many of the 9,999 events are accepted.
set -eu
. "$(dirname "$0")/program.sh"

# 9,000 classes of a variable and three methods each, that send one selector and speak of one class.
awk 'BEGIN {
    for (n = 1; n <= 9000; n++) {
        printf "Object subclass: #Account%d\n\tinstanceVariableNames: '"'balance'"'\n\tclassVariableNames: '"''"'\n\tpoolDictionaries: '"''"'\n\tcategory: '"'Bank'"'!\n\n", n
        printf "!Account%d methodsFor: '"'bank'"'!\ndeposit: amount\n\t\"Puts the amount in.\"\n\tamount > 0 ifTrue: [balance := self balance + amount]!\n\nbalance\n\t^balance isNil ifTrue: [0] ifFalse: [balance]!\n\nfee\n\t^(self balance max: 100) // Account1 new balance! !\n\n", n
    }
}' > "$folder/bank.st"
awk 'BEGIN {
    for (n = 1; n <= 3333; n++)
        print "1 begin\n1 propose renameClass " (n % 2 ? "Account2 Ledger" : "Ledger Account2") "\n1 commit"
}' > "$folder/log"

status=0
/usr/bin/env time -f '%U %S %M' -o "$folder/times" "$program" team "$folder/bank.st" "$folder/log" > "$folder/out" || status=$?
accepted=$(sed '/^--$/q' "$folder/out" | grep -c ' ok ')
tail -n 1 "$folder/times" | awk -v status="$status" -v accepted="$accepted" \
    '{ printf "status %d  %.2f s  %d MB  %d accepted\n", status, $1 + $2, $3 / 1024, accepted }'
