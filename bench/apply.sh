#!/bin/sh
# Times `apply` of the built program over large images (./build makes the program). It is no test.
#
#     bench/apply.sh [PROGRAM [RUNS]]
#
# The first table has each command on 80,000 methods and on 9,979 classes: the milliseconds of processor time of the first, the second
# and the twentieth command of a script, then how many commands a long script has and what each of them takes, and the greatest memory
# in megabytes. Reading and writing the image is taken off: the first command takes what a script of one command takes more than an empty
# one. Each of these is the best of RUNS, 5 if no number is given. The long script has as many commands as the image allows, up to
# 10,000, but about 60 seconds of them at most. Two commands in one line take turns, so that the first one of the line is the first of
# the script, and the last one is its twentieth. All of it takes some half an hour with five runs.
#
# The second table has whole scripts over 1,640,000 nodes and over 4 MB of ordinary code: the status, the seconds of processor time and
# the greatest memory, and whether the image came out as it was; only the first two leave it so.
set -eu
program=${1:-}
runs=${2:-5}
. "$(dirname "$0")/program.sh"

python3 - "$program" "$folder" "$runs" <<'END'
import os
import subprocess
import sys

program, folder, runs = sys.argv[1], sys.argv[2], int(sys.argv[3])
MOST_COMMANDS = 10_000
LONGEST = 60.0  # seconds of a long script
CLASSES = 9_979  # one less than there may be beside the kernel's, so that one can be added


def class_text(name, superclass, variables, shared):
    return (f"{superclass} subclass: #{name}\n\tinstanceVariableNames: '{variables}'\n\tclassVariableNames: '{shared}'\n"
            f"\tpoolDictionaries: ''\n\tcategory: 'T'!\n\n")


def method_text(class_name, methods):
    return f"!{class_name} methodsFor: 'm'!\n" + "!\n\n".join(methods) + "! !\n\n"


def image_of_methods():
    """80,000 methods in two classes, one below the other: ten thousand of each form."""
    numbers = [f"{n:04d}" for n in range(10_000)]
    upper = [form.replace("#", number) for form in [
        "a# ^1", "b#: x ^1", "c# ^self g#", "d# | t | t := 1. ^t", "g# ^1", "r# ^v",
    ] for number in numbers]
    upper += [f"h{number} ^self one" for number in numbers[2:]] + ["one ^1", "user ^u"]
    lower = [f"e{number} ^1" for number in numbers]
    return (class_text("Upper", "Object", "u v", "S") + "Upper class instanceVariableNames: 'w'!\n\n"
            + class_text("Lower", "Upper", "l", "T") + method_text("Upper", upper) + method_text("Lower", lower))


def image_of_classes():
    """A class, two below it, one of them below the other, and all others below it: those have variables and five methods each."""
    numbers = [f"{n:04d}" for n in range(CLASSES - 3)]
    text = [class_text("Root", "Object", "r", "R"), class_text("Upper", "Root", "", ""), class_text("Lower", "Upper", "l", "T")]
    text += [class_text(f"C{n}", "Root", f"u{n} v{n}", f"S{n}") + f"C{n} class instanceVariableNames: 'w{n}'!\n\n" for n in numbers]
    text += [method_text("Lower", ["e ^1"])]
    text += [method_text(f"C{n}", [f"a{n} ^1", f"b{n}: x ^1", f"c{n} ^self g{n}", f"d{n} | t | t := 1. ^t", f"g{n} ^v{n}"]) for n in numbers]
    return "".join(text)


# The commands of a line take turns; # is the number of the turn.
ON_METHODS = """
addClass New Object, removeClass New
renameClass Lower Other, renameClass Other Lower
addInstVar Upper new, removeInstVar Upper new
renameInstVar Upper u other, renameInstVar Upper other u
pushUpInstVar Lower l, pushDownInstVar Upper l
addClassVar Upper New, removeClassVar Upper New
renameClassVar Upper S Other, renameClassVar Upper Other S
pushUpClassVar Lower T, pushDownClassVar Upper T Lower
addClassSideVar Upper new, removeClassSideVar Upper new
renameClassSideVar Upper w other, renameClassSideVar Upper other w
renameSelector a# z#
addMethod Upper instance m z# ^1
removeMethod Upper instance a#
pushUpMethod Lower instance e#
pushDownMethod Upper instance a#
addParameter a# z#: x nil
removeParameter b#: 1 z#
renameTemp Upper instance b#: x y
abstractInstVar Upper u, undo
extractMethod Upper instance a# 7 8 z#
inlineMethod Upper instance c# 7 17
inlineMethod Upper instance h0002 7 15, undo
extractTemp Upper instance a# 7 8 t
inlineTemp Upper instance d# t
createAccessors Upper u, undo
extractSuperclass New Upper Lower, undo
pushUpWithMethods Lower l, undo
renameClass Lower Other, undo, redo, undo
renameSelector one other, renameSelector other one
"""
ON_CLASSES = """
addClass New Root, removeClass New
addClass New Root C#, undo
removeClass C#
renameClass C# D#
addInstVar C# new
renameInstVar C# v# new
removeInstVar C# u#
pushUpInstVar C# v#
pushUpInstVar Lower l, pushDownInstVar Upper l
pushDownInstVar Root r, undo
addClassVar C# New#
renameClassVar C# S# New#
removeClassVar C# S#
pushUpClassVar C# S#
pushUpClassVar C# S#, pushDownClassVar Root S# C#
addClassSideVar C# new
renameClassSideVar C# w# new
removeClassSideVar C# w#
renameSelector a# z#
addMethod C# instance m z# ^1
removeMethod C# instance a#
pushUpMethod C# instance a#
pushUpMethod Lower instance e, pushDownMethod Upper instance e
addParameter a# z#: x nil
removeParameter b#: 1 z#
renameTemp C# instance b#: x y
abstractInstVar C# v#
extractMethod C# instance a# 7 8 z#
inlineMethod C# instance c# 7 17
extractTemp C# instance a# 7 8 t
inlineTemp C# instance d# t
createAccessors C# v#
extractSuperclass New Root C#, undo
pushUpWithMethods C# v#
renameClass C0000 Other, undo, redo, undo
"""


def commands(forms, count):
    return [forms[at % len(forms)].replace("#", f"{at // len(forms):04d}") for at in range(count)]


def run(image, lines):
    """Seconds of processor time and the greatest memory in megabytes of one script, and what it printed, if it was refused."""
    script, out = f"{folder}/script", f"{folder}/out"
    with open(script, "w") as file:
        file.write("".join(line + "\n" for line in lines))
    with open(out, "wb") as file:
        child = subprocess.Popen([program, "apply", image, script], stdout=file)
        _, status, usage = os.wait4(child.pid, 0)
    refused = None
    if status != 0:
        with open(out, errors="replace") as file:
            refused = file.readline().strip() or f"status {status}"
    return usage.ru_utime + usage.ru_stime, usage.ru_maxrss / 1024, refused


def best(image, forms, count):
    return min(run(image, commands(forms, count))[0] for _ in range(runs))


def row(image, forms, most, empty):
    """A line of the table."""
    name = ", ".join(form.replace("#", "0000") for form in forms)
    one, two, nineteen, twenty = (best(image, forms, count) for count in (1, 2, 19, 20))
    each = max(twenty - empty, 0.001) / 20
    count = max(20, min(most, int(LONGEST / each)))
    seconds, memory, refused = min((run(image, commands(forms, count)) for _ in range(runs)), key=lambda told: told[0])
    if refused:
        return f"{name:66} {refused}"
    single = "".join(f"{1000 * more:9.2f}" for more in (one - empty, two - one, twenty - nineteen))
    return f"{name:66}{single}{count:9d}{1000 * (seconds - empty) / count:9.3f}{memory:8.0f}"


for title, text, lines, rounds in [
    ("80,000 methods", image_of_methods(), ON_METHODS, 10_000),
    (f"{CLASSES:,} classes", image_of_classes(), ON_CLASSES, CLASSES - 3),
]:
    image = f"{folder}/image.st"
    with open(image, "w") as file:
        file.write(text)
    empty = best(image, [], 0)
    print(f"{title}, {len(text)} bytes, read and written in {1000 * empty:.0f} ms")
    print(f"{'':66}{'first':>9}{'second':>9}{'20th':>9}{'commands':>9}{'ms each':>9}{'MB':>8}")
    for line in lines.split("\n"):
        if line:
            forms = line.split(", ")
            print(row(image, forms, min(MOST_COMMANDS, rounds * len(forms)), empty), flush=True)
    print()
END

# A class without code, and a class of 20,000 methods with 80 sends each: 1,640,000 nodes.
awk 'BEGIN {
    for (n = 1; n <= 80; n++) sends = sends " x"
    split("A Big", names, " ")
    for (n = 1; n <= 2; n++)
        printf "Object subclass: #%s\n\tinstanceVariableNames: '"''"'\n\tclassVariableNames: '"''"'\n\tpoolDictionaries: '"''"'\n\tcategory: '"'T'"'!\n\n", names[n]
    printf "!Big methodsFor: '"'m'"'!\n"
    for (n = 1; n <= 20000; n++) printf "m%d ^0%s!%s\n\n", n, sends, (n == 20000 ? " !" : "")
}' > "$folder/big.st"

# 4 MB of ordinary code: 9,000 classes of a variable and three methods each, that send one selector and speak of one class.
awk 'BEGIN {
    for (n = 1; n <= 9000; n++) {
        printf "Object subclass: #Account%d\n\tinstanceVariableNames: '"'balance'"'\n\tclassVariableNames: '"''"'\n\tpoolDictionaries: '"''"'\n\tcategory: '"'Bank'"'!\n\n", n
        printf "!Account%d methodsFor: '"'bank'"'!\ndeposit: amount\n\t\"Puts the amount in.\"\n\tamount > 0 ifTrue: [balance := self balance + amount]!\n\nbalance\n\t^balance isNil ifTrue: [0] ifFalse: [balance]!\n\nfee\n\t^(self balance max: 100) // Account1 new balance! !\n\n", n
    }
}' > "$folder/bank.st"

repeat() {
    awk -v count="$1" -v first="$2" -v second="$3" 'BEGIN { for (n = 1; n <= count; n++) print (n % 2 ? first : second) }'
}
repeat 10000 'renameClass A B' 'renameClass B A' > "$folder/classes"
{ repeat 5000 'renameClass A B' 'renameClass B A'; repeat 5000 undo undo; } > "$folder/undone"
repeat 10000 'renameSelector m1 n1' 'renameSelector n1 m1' > "$folder/selectors"
echo 'renameSelector balance credit' > "$folder/selector"
echo 'renameClass Account1 Ledger' > "$folder/class"
echo 'renameInstVar Account1 balance credit' > "$folder/variable"

while IFS='|' read -r name image script; do
    status=0
    /usr/bin/env time -f '%e %U %S %M' -o "$folder/times" "$program" apply "$folder/$image" "$folder/$script" > "$folder/out" || status=$?
    same=different
    cmp -s "$folder/out" "$folder/$image" && same=same
    tail -n 1 "$folder/times" | awk -v name="$name" -v status="$status" -v same="$same" \
        '{ printf "%-28s status %d  %.2f s  %d MB  %s\n", name, status, $2 + $3, $4 / 1024, same }'
done <<'END'
10,000 renamings of a class|big.st|classes
5,000 of them, and undone|big.st|undone
10,000 of a selector|big.st|selectors
a selector in 4 MB|bank.st|selector
a class in 4 MB|bank.st|class
a variable in 4 MB|bank.st|variable
END
