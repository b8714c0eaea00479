#!/bin/sh
# Lists, in the folder that it is given (this repository, if none), the places in src/ that a pass over the design looks at, point by point, with
# how many lines each command finds. Each line found is read: docs/DESIGN-PASS.md says which of them are places.
cd "${1:-$(dirname "$0")/..}" || exit 1

src() { find crates -path '*/out' -prune -o -path '*/src/*' -name '*.rt' -print | sort; }

list() {
    printf '\n## %s\n' "$1"
    shift
    found=$("$@" | sort)
    printf '%s\n' "$found" | sed '/^$/d'
    printf '%s lines\n' "$(printf '%s\n' "$found" | sed '/^$/d' | wc -l)"
}

grep_src() { src | xargs grep -nE "$1"; }

# Without the tests, whose arrays are the memory that a sheet is lent, and tables of cases.
grep_code() { src | grep -v '_tests/' | grep -v '/tests\.rt' | xargs grep -nE "$1"; }

# A clause of a contract, with how often it is said.
clauses() { src | xargs grep -hE '^ *(requires|ensures) ' | sed 's/^ *//' | sort | uniq -c | awk '$1 >= 3'; }

# The names of functions that stand in more than one place, with how many.
names() { src | xargs grep -hoE '\bfn [a-z_]+' | sort | uniq -c | awk '$1 > 1'; }

list '1a. own enums' grep_src '^(pub )?enum '
list '1b. answers of bool' grep_src '\) -> bool'
list '1c. a number that stands for none' grep_src '\b0 (if|where|for) |\b7 once'
list '1d. a Result or an Option handed on by hand' grep_src 'Err\([a-z_]+\) => (return )?Err|Ok\(([a-z()]*)\) => Ok\(\2\)|None => None|None => Err|Err\(_\) =>|None => unreachable|^ +unreachable'
list '1e. numbers for kinds or refusals' grep_src '\b(number|code|kind|layer): (u8|u16|usize),'
list '2. one name in several places' names
list '3. loops that count' grep_src '\bfor [a-z_]+ in [^{]*\.\.|\bwhile '
list '4a. conversion, equality, printing by hand' grep_src '\bfn (report|same|is_zero|flipped|letter|digit|mark_of|signed|with_sign|put_[a-z]+|answered|at_place|at_column|entry_of|parts_of|limit_of)\b'
list '4b. impls of what can be derived' grep_src '^impl.* (PartialEq|Eq|PartialOrd|Ord|Clone|Copy|Debug|Display|Default)\b.* for '
list '5a. one clause in three contracts or more' clauses
list '5b. parameters that travel together' grep_src '^ +(n: usize|entries: &\[Entry\]|at: usize),$|n: usize, (h|entries)|at: usize, '
list '6a. arrays, and lengths beside them' grep_code '\[[^];]+; *[0-9A-Za-z_]+\]|^ +(pub )?(count|depth): usize,'
list '6b. places in memory reckoned by hand' grep_code '\* width|\(n \+ 1\) \*|\* \(2 \* [a-z.]*n|\* \(n \+ 1\)'
list '7. which step to run' grep_src 'match (mark|heading\.kind|step|kind) |\.is_ok\(\) \{|&\[fn|: fn\('
