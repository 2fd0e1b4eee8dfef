#!/bin/bash
# Lists the places that docs/DESIGN-PASS.md counts, point by point; `tools/places.sh N` lists those of point N, and `tools/places.sh again`
# looks for them in another way.
cd "$(dirname "$0")/.." || exit 1
src=$(find crates/*/src -name '*.rt' | sort)

point1() {
    echo '# enums of our own'
    grep -nE '^ *(pub(\([a-z]+\))? )?enum ' $src
    echo '# numbers that stand for kinds, and for none'
    grep -nE 'fn number\(|number: u8|cause: u8|to == 0|\[0; MOST_LETTERS\]' $src
    echo '# an error that is rebuilt by hand'
    grep -nE 'Err\([a-z_]+\) => |Err\(_\) => |Ok\([a-z_()]*\) => Ok|else \{ *$' $src | grep -E 'Err|Ok'
}

point2() {
    echo '# functions of one name'
    grep -hoE 'fn [a-z_]+' $src | sort | uniq -c | awk '$1 > 1'
    echo '# types'
    grep -nE '^ *(pub(\([a-z]+\))? )?(struct|enum) ' $src
}

point3() {
    grep -nE '\bwhile |\bloop \{|\bfor [a-z_(, )]+ in .*\.\.' $src
}

point4() {
    echo '# blocks'
    grep -nE '^ *impl.*\b(From|TryFrom|PartialEq|Eq|Ord|Clone|Copy|Display|Drop|Default)\b.* for ' $src
    echo '# functions that convert'
    grep -nE 'fn (number|line|cause|note_of|cell_line|count_line|count_of|refused|refusal)\(' $src
    echo '# types without the derives of the others'
    grep -nE -A1 '^#\[derive' $src | grep -vE 'Debug|^--' | grep derive
}

point5() {
    echo '# facts that are asked of callers, three times or more'
    grep -hoE 'requires.*' $src | grep -oE '[a-z_.]+ (≤|<|≡) [a-z0-9_]+|[0-9] (≤|<) [a-z]+|length [a-z.]+ ≡ [0-9]+|[A-Z][A-Za-z]+ .*' | sed 's/ }$//' | sort | uniq -c | awk '$1 > 2'
    echo '# parameters that travel together, three times or more'
    python3 - $src <<'PY'
import collections, itertools, re, sys
seen = collections.defaultdict(set)
for name in sys.argv[1:]:
    text = open(name).read()
    for fn in re.finditer(r'\bfn (\w+)(?:<[^>]*>)?\(([^)]*)\)', text):
        params = re.findall(r'(?:mut )?(\w+): ', fn.group(2))
        for pair in itertools.combinations(sorted(params), 2):
            seen[pair].add((name.split('/')[1], fn.group(1)))
for pair, places in sorted(seen.items()):
    if len(places) > 2:
        print(len(places), *pair, '|', *['::'.join(p) for p in sorted(places)])
PY
}

point6() {
    grep -nE '\[(mut )?[A-Za-z0-9_]+; [A-Za-z_0-9]+\]|&(mut )?\[u64\]|cells\[4 \*|\[4 \* ' $src | grep -vE '^[^:]*trials'
}

point7() {
    grep -nE '\b(Fn|FnMut|FnOnce|dyn|fn\()|match (call|self) ' $src
}

point8() {
    for crate in crates/*/; do
        echo "$(basename $crate): $(find $crate/proofs -name '*.antt' 2>/dev/null | xargs cat 2>/dev/null | wc -l) lines of proofs, $(find $crate/proofs -name 'Answers.antt' 2>/dev/null | wc -l) pages of answers with $(find $crate/proofs -name 'Answers.antt' 2>/dev/null | xargs cat 2>/dev/null | grep -cE '^-?[A-Za-z_.-]+ :|^[a-z].* : ') answers"
    done
}

again() {
    listed() {
        echo "# $1: $(wc -l < /tmp/places.$$)"
        cat /tmp/places.$$
        rm -f /tmp/places.$$
    }
    grep -nE '^ *(Ok|Err|Some|None)\b.*=> *\{? *(return )?(Ok|Err|Some|None)\b' $src > /tmp/places.$$
    listed 'arms that turn a Result or an Option into one'
    grep -nE 'let (Ok|Err|Some).* else' $src > /tmp/places.$$
    listed 'let .. else of a Result or an Option'
    grep -nE '\b[a-z_]+ [+-]= 1;' $src > /tmp/places.$$
    listed 'counters raised by hand'
    grep -nE '\.enumerate\(\)' $src > /tmp/places.$$
    listed 'loops with a number beside the item'
    grep -nE '[a-z_]\[[^];]*\b(i|k|w|j|a|row|place|letter)\b[^];]*\]' $src > /tmp/places.$$
    listed 'an index by a number of a loop'
    grep -nE '[a-z_]\[[^];]*[-+*/] ?[^];]*\]' $src | grep -vE ': *//' > /tmp/places.$$
    listed 'arithmetic in an index'
    grep -nE '^ *requires' $src > /tmp/places.$$
    listed 'clauses that ask something of a caller'
}

if [ "${1:-}" = again ]; then
    again
    exit
fi
for n in ${1:-1 2 3 4 5 6 7 8}; do
    echo "## point $n"
    point$n
done
