#!/bin/sh
# Lists the lines of src/ where a form that docs/DESIGN-PASS.md counts may stand: tools/places.sh POINT [FOLDER]. Tests are left out.
# Which of the lines are such places, a reader says: docs/DESIGN-PASS.md names them.
cd "${2:-.}" || exit 2
code() { find crates -path '*/src/*.rt' ! -path '*/out/*' | LC_ALL=C sort | while read -r f; do sed '/^#\[cfg(test)\]/,$s/.*//; s|^ *//.*||' "$f" | sed "s|^|$f: |"; done; }
numbered() { find crates -path '*/src/*.rt' ! -path '*/out/*' | LC_ALL=C sort | while read -r f; do sed '/^#\[cfg(test)\]/,$s/.*//; s|^ *//.*||' "$f" | grep -nE "$1" | sed "s|^|$f:|"; done; }
case $1 in
# a flag for one of two outcomes, a flag beside what is changed, numbers in place of kinds, answers turned to numbers by hand
1) numbered 'Result<bool|&mut [A-Z][a-z]*\) -> bool|NEVER|match (code|self\.again|what\.again|level) |level (==|<|>) [0-9]|code <= 10|fn (number|done|answered)[<(].*Result' ;;
# names of functions and constants that stand more than once, each with its files (calls of a trait's methods have their impls here too)
2) code | grep -oE '^[^ ]* .*(fn [a-z_]+|const [A-Z_]+)' | sed -E 's/^([^ ]*): .*(fn|const) ([A-Za-z_]+)$/\3 \1/' | sort -u | awk '{n[$1]++; f[$1] = f[$1] " " $2} END {for (k in n) if (n[k] > 1) print k ":" f[k]}' | sort ;;
# loops over a range of numbers, or with no list, and numbers that are counted up or down
3) numbered '^ *(while|loop)\b|for [_a-z]+ in .*\.\.|[a-z] (\+|-)= (1|width)|= [a-z]+\.saturating_add\(1\)' ;;
# comparisons and printing by hand, widening by `as`, errors thrown away by a match
4) numbered '^impl.* (PartialEq|Eq|PartialOrd|Ord|Clone|Default|From<.*>|TryFrom<.*>|fmt::Display|fmt::Debug) for|[]a-z0-9)] as (u16|u32|u64)\b|Err\(_\) =>|fn tag' ;;
# premises that stand three times or more, and functions of five parameters or more
5) code | grep -oE 'requires.*' | sed -E 's/^[^{]*//' | sort | uniq -c | awk '$1 >= 3'
   code | sed 's/^[^ ]*: //' | tr '\n' ' ' | grep -oE 'fn [a-z_]+(<[^(]*>)?\([^()]*(\([^()]*\)[^()]*)*\)' | awk -F, 'NF >= 6 || (NF == 5 && $0 !~ /, *\)$/)' | sed 's/  */ /g' ;;
# a length beside a buffer, a buffer of a fixed size made larger than what it holds
6) numbered '\((u8|usize), \[|\[u32; 20\], usize|^ *(pub )?(size|used|count): (u8|usize),|, n: usize\)|^ *n: usize,|\}; (100|400|2000)\]|; (100|400)\],|\[false; 100\]|\[\[0; 20\]; 100\]|\[empty; 100\]' ;;
# a choice of what to run by a value
7) numbered 'match (\*self|step|kind)\b|\[fn|dyn |impl Fn' ;;
*) echo "tools/places.sh 1..7 [FOLDER]" >&2; exit 2 ;;
esac
