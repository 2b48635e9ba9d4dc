# How many places of each form of docs/DESIGN-PASS.md the Rattle sources have: sh tools/count-forms.sh [TOP]
cd "${1:-.}" || exit 1
S=$(ls crates/*/src/*.rt)
n() { printf '%-66s %s\n' "$1" "$2"; }
c() { n "$1" "$(grep -cE "$2" $S | awk -F: '{t+=$2} END {print t}')"; }
c "1 enums of the shape of Option or Result"            '^(pub )?enum (Field|Entry|Parsed|LineRead)\b'
c "1 structs with a refusal number, 0 for none, beside values" '^ *pub refusal: u32,'
c "1 structs with a flag beside values"                  '^ *pub [a-z]+: bool,'
c "1 tests of a refusal number"                          'refusal != 0|\.refusal\b.*== 0'
c "1 constants for a refusal's number"                   '^const (FIRST_LINE_MALFORMED|TOO_MANY_LINES|WRONG_LENGTH|LINE_MALFORMED|EVENT_UNKNOWN|TICK_BELOW|CLOSE_BELOW|OVER_LIMITS|ROW_MALFORMED|WRONG_[A-Z]+|SECTION_TOO_LONG|NO_SUCH_NUMBER|BUFFER_TOO_SHORT|TOO_FEW_PLACES|WRONG_NUMBER_OF_POSITIONS): u32'
c "1 kinds of row as numbers: constants"                 '^const (POINT|NEXT|LAST|BEFORE|APART|SAME|EVENT): u32'
c "1 kinds of row as numbers: matches and tests"         '(match|==|!=|<=|<) ?(row\.|line\.)?kind|kind (==|!=|<=|<) [0-9A-Z]'
c "1 answers in which 0 stands for none"                 'or_zero|^const NO_POINT|, or 0\.$'
c "3 while loops"                                        "^ *('[a-z]+: )?while "
c "3 loops that add one to an index by hand"             '^ *(i|j|x|v|w|e|c|z|s) \+= 1;'
c "5 contracts that ask for Held run"                    'requires.*Held run'
c "5 contracts that ask for a linked plan"               'requires.*LinkedIn plan'
c "6 run as a bare array of words in a signature"        '(run|words): &(mut )?\[u64; (run::)?ROOM\]'
c "6 plan as a bare array of numbers in a signature"     'plan: &(mut )?\[u32; (plan::)?PLAN_ROOM\]'
c "6 rows as bare numbers, six to a row, in a signature" '(rows|out): &(mut )?\[u32(\]|; (pattern::)?ROWS_ROOM\])'
c "7 switches handed down"                               '(joining|upward): bool'
c "2, 4 min, max and copying written by hand"            'fn (lower|higher|apart|copy_front|copy_line|copy_in|copy_out|unlinked|lower_half|upper_half|verdict_number)\('
