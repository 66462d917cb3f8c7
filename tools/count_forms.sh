#!/usr/bin/env bash
# Lists the lines of src/ that may want another form, a heading for each kind, with how many there are.
# count_forms.sh [-v]: at the top of the repository; -v prints the lines too.
cd "$(dirname "${BASH_SOURCE[0]}")/.." || exit 2
[ "$1" = -v ] && verbose=1

show() {
    local title=$1 lines
    lines=$(cat)
    printf '%4d  %s\n' "$(grep -c . <<<"$lines")" "$title"
    [ -n "$verbose" ] && sed 's/^/          /' <<<"$lines"
}

code() { grep -rnE "$1" crates/*/src --include='*.rt'; }

code '^\s*(pub(\([a-z]+\))? )?enum ' | show '1  enums of our own'
code 'const [A-Z_]+: u(8|16) = ' | show '1  short numbers with a name'
code '(Ok|Some|None|Err)(\([a-z_]*\))? => (None|Some|Ok|Err)|^\s*None$' | show '1  an Option or a Result taken apart and put together by hand'
code '^[^/]*\b[a-z_]+: bool\b' | show '1  flags that are passed or kept'
grep -rhoE '^\s*(pub(\([a-z]+\))? )?(const )?fn [a-z_0-9]+' crates/*/src --include='*.rt' | grep -oE 'fn .*' | sort | uniq -c |
    awk '$1 > 1' | show '2  names of functions that stand more than once'
code 'const [A-Z_]+: [a-z0-9]+ = [0-9_]+;' | sed -E 's/.* = ([0-9_]+);/\1/; s/_//g' | sort | uniq -c | awk '$1 > 1' |
    show '2  numbers that more than one constant has'
code '^\s*(.[a-z_]+: )?for .* in .*\.\.' | show '3  for over a range of numbers'
code '^\s*(let [a-z]+ = )?(.[a-z_]+: )?(while |loop \{)' | show '3  while and loop'
code 'fn (refusal|kind|word|line|lines|told|asked|before|spell|put_[a-z]+|[a-z]+_text)\b' |
    show '4  functions named for a conversion, an order or printing'
grep -rhE '^\s*requires ' crates/*/src --include='*.rt' |
    sed -E 's/^\s*requires( [a-z_]+)? \{ //; s/ \}$//; s/\b[RB]\.scheme [a-z]+\.(now|old)/SCHEME/g; s/\.(now|old)\b//g' |
    sort | uniq -c | awk '$1 > 2' | show '5  facts required by three functions or more'
code '&mut \[u16\],?$|table: &mut \[u8\]|rows: u32|count: u32' | show '5  parameters and fields that go together'
code '^\s*(pub(\([a-z]+\))? )?[a-z_]+: \[[A-Za-z<>0-9]+; [A-Za-z0-9_]+\]' | show '6  arrays of fixed length in fields'
code '^\s*(pub(\([a-z]+\))? )?(count|length|len): (usize|u16|u32)' | show '6  lengths in fields'
code 'match (ask\.call|line|\*step|piece\.kind)|match get_u16' | show '7  switches on a step, a line or a kind'
code '\bdyn |\bfn\(|Box<' | show '7  tables of functions, boxes'
