#!/bin/sh
# Lists the places in src/ that read like the older language, by point; the last line of each list counts it.
# usage: sh tools/places.sh [POINT]      at the top of the repository; a point from 1 to 8, or all of them
set -u
cd "$(dirname "$0")/.."
files=$(find crates/*/src -name '*.rt' | sort)

# lists the lines that fit a pattern, with the number of them
list() {
    echo "-- $1"
    grep -nE -e "$2" $files | sed 's/^crates\///'
    echo "   count: $(cat $files | grep -cE -e "$2")"
}

one() {
    list 'own enums' '^ *(pub(\([a-z]+\))? )?enum '
    list 'flags: fields that are bool' '^ +(pub(\([a-z]+\))? )?[a-z_]+: bool,'
    list 'arms that only hand on what they match' '^ *(Ok|Some|Err)\(([a-z_]+|[A-Za-z:]+\([a-z_, ]+\))\) => (return )?(Ok|Some|Err)\(|^ *None => (None|Err)|=> Err\([A-Za-z:]+\(([a-z_]+, )*[a-z_]+\)\),$|^ *Err\([a-z_]+\) => (Err|return)'
    list 'bool answers of functions without an input that matters' 'fn [a-z_]+\(\) -> bool'
    list 'numbers for none, and for kinds' '^ +0$|^ +return 0;|: Option<usize>|=> \(?[0-9_]+(, |,$)|unwrap_or\(0\)'
}

two() {
    echo '-- functions whose names stand in more than one crate or file (trait methods with their impls among them)'
    cat $files | grep -oE 'fn [a-z_0-9]+' | sort | uniq -c | sort -rn | awk '$1 > 1'
    echo "   count: $(cat $files | grep -oE 'fn [a-z_0-9]+' | sort | uniq -c | awk '$1 > 1' | wc -l)"
    echo '-- types whose names stand in more than one file'
    cat $files | grep -oE '^ *(pub(\([a-z]+\))? )?(struct|enum) [A-Za-z]+' | sed 's/.* //' | sort | uniq -c | awk '$1 > 1'
}

three() {
    list 'for over a range' 'for [a-z_]+ in [^{]*\.\.'
    list 'while' '^ *while '
    list 'enumerate' 'enumerate\(\)'
}

four() {
    list 'impls of comparison, copy, conversion and print' '^impl.* (PartialEq|Eq|PartialOrd|Ord|Clone|Copy|From<.*>|TryFrom<.*>|Display|fmt::Display|Debug|fmt::Debug) for '
    list 'functions that convert or print by hand' 'fn (print|show[a-z_]*|number|[a-z]*_number|of|said|spoken|refused|under|tagged|at_line|at_replica|asked_to|asked|digits|put[a-z_]*|write_reason)(<[^(]*>)?\('
}

five() {
    echo '-- facts that functions ask for, by how often they stand'
    cat $files | grep -oE 'requires .*\{.*\}' | sed 's/requires [a-z_]* *//' | sort | uniq -c | sort -rn | head -20
    echo '-- parameters that travel together, by how often they do'
    cat $files | grep -oE '\([^()]*\) *(->|$|\{)' | grep -oE '[a-z_]+: [^,()]+, [a-z_]+: [^,()]+' | sort | uniq -c | sort -rn | awk '$1 > 2'
}

six() {
    list 'arrays in types' '^ +(pub(\([a-z]+\))? )?[a-z_]+: \[.*;.*\],'
    list 'lengths in types' '^ +(pub(\([a-z]+\))? )?(len|count|length|size|pairs|at): usize,'
    list 'links by index' 'Option<usize>'
}

seven() {
    list 'closures as parameters' 'impl Fn|F: Fn|dyn '
    list 'switches on which step to run' 'match (order|self\.side|self\.in_right|event|step)'
}

eight() {
    echo '-- answers, by crate'
    for crate in crates/*; do
        n=$(grep -rhE '^pub [^ ]+ : goal\.' "$crate/proofs" 2>/dev/null | wc -l)
        echo "   $(basename "$crate") $n"
    done
    echo "   count: $(grep -rhE '^pub [^ ]+ : goal\.' crates/*/proofs | wc -l)"
    echo '-- lemmas and definitions of proofs/, by crate'
    for crate in crates/*; do
        n=$(find "$crate/proofs" -maxdepth 1 -name '*.antt' 2>/dev/null | xargs cat 2>/dev/null | grep -cE '^ *(pub )?[a-zA-Z_0-9-]+ : ')
        echo "   $(basename "$crate") $n"
    done
}

for point in ${1:-1 2 3 4 5 6 7 8}; do
    echo "== point $point"
    case $point in
    1) one ;; 2) two ;; 3) three ;; 4) four ;; 5) five ;; 6) six ;; 7) seven ;; 8) eight ;;
    esac
done
