#!/usr/bin/env bash
# Runs the built program on a few command lines and compares its status, standard output and standard error with what is
# expected: program.sh [PROGRAM]. Without PROGRAM it is proved and built first. The last line is 'N passed, M failed'.
set -u
program=${1:+$(realpath -m "$1")}
cd "$(dirname "$0")/.." || exit 2

if [ -z "$program" ]; then
    (cd crates/ssimdesk && rt run -- tidy - < stdin > /dev/null)
    program=$(realpath -m crates/ssimdesk/out/ssimdesk)
fi
if [ ! -x "$program" ]; then
    echo "program: $program is not built"
    echo "0 passed, 1 failed"
    exit 1
fi
tidied=$(realpath crates/ssimdesk/stdout)
names=$(sed -n 's/^- `\([a-z]*\) .*/\1/p' README.md)
room=$(mktemp -d)
trap 'rm -rf "$room"' EXIT
cp tests/program/*.ssim "$room"
cd "$room" || exit 2

# The most bytes that a file may have, and one more. Cut at the limit, the second would be refused as the first is.
truncate -s 268435456 longest.ssim
truncate -s 268435457 too_long.ssim

passed=0 failed=0

# expect NAME STATUS OUT ERR WORDS..: runs the program on the words. OUT and ERR are texts, @FILE, ~PART, or @ for any text.
# `input` is the file for standard input, `to` that for standard output.
expect() {
    local name=$1 status=$2 out=$3 err=$4
    shift 4
    : > out
    "$program" "$@" > "${to:-out}" 2> err < "${input:-/dev/null}"
    local got=$?
    if [ $got -eq "$status" ] && same out "$out" && same err "$err"; then
        passed=$((passed + 1))
    else
        failed=$((failed + 1))
        echo "program: $name: status $got, expected $status; it printed:"
        head -c 2000 out err
    fi
}

# expect_file NAME FILE OTHER: FILE has the bytes of OTHER, or is missing if OTHER is empty.
expect_file() {
    if { [ -n "$3" ] && cmp -s "$2" "$3"; } || { [ -z "$3" ] && [ ! -e "$2" ]; }; then
        passed=$((passed + 1))
    else
        failed=$((failed + 1))
        echo "program: $1: the file $2 is not ${3:-missing}"
    fi
}

# same FILE TEXT: whether the file has exactly the text, or the bytes of the file that @FILE names, or the text after ~ as a part,
# or any bytes.
same() {
    case $2 in
        @) [ -s "$1" ] ;;
        "~"*) grep -qF -- "${2#"~"}" "$1" ;;
        @*) cmp -s "$1" "${2#@}" ;;
        *) printf %s "$2" | cmp -s "$1" - ;;
    esac
}

no_command="error: unrecognized subcommand 'fly'

Usage: ssimdesk <COMMAND>

For more information, try '--help'.
"

expect "tidy joins a divided flight" 0 "@$tidied" "" tidy divided.ssim
input=divided.ssim expect "tidy reads standard input" 0 "@$tidied" "" tidy -
expect "tidy leaves its output as it is" 0 "@$tidied" "" tidy "$tidied"
expect "check prints notes" 0 $'note Serial record 5\nok records 5 flights 1 notes 1\n' "" check noted.ssim
expect "a data set is refused" 1 "" $'refused 12 BadColumn record 3 column 37\n' tidy broken.ssim
expect "a file is missing" 1 "" $'refused 91 File missing.ssim\n' check missing.ssim
expect "the words name no command" 2 "" "$no_command" fly divided.ssim
to=/dev/full expect "the output cannot be written" 1 "" $'refused 52 WriteFault\n' tidy divided.ssim
expect "a file may be as long as the limit" 1 "" $'refused 11 BadType record 1\n' check longest.ssim
expect "a file is too long" 1 "" $'refused 91 File too_long.ssim\n' check too_long.ssim
input=too_long.ssim expect "standard input is too long" 1 "" $'refused 91 File -\n' check -

# single_dates COUNT: this many flights on a hundred dates from 30MAR25 on, which is a Sunday: a leg record for each date, with
# another aircraft on one weekday.
single_dates() {
    head -n 2 divided.ssim
    seq 0 99 | sed 's/$/ days 2025-03-30/' | LC_ALL=C date -f - +%d%b%y | tr a-z A-Z | tee dates | awk -v leg="$leg" -v flights="$1" '{
        for (flight = 1; flight <= flights; flight++)
            print substr(leg, 1, 5) sprintf("%04d", flight) substr(leg, 10, 5) $1 $1 substr(leg, 29, 44) \
                ((NR - 1) % 7 == flight % 7 ? "319" : "320") substr(leg, 76)
    }'
    tail -n 1 divided.ssim
}

# joined_dates COUNT: their canonical form: two pieces a flight, the one that begins first before the other.
joined_dates() {
    awk -v leg="$leg" -v flights="$1" -v header="$(sed -n 1p "$tidied")" -v carrier="$(sed -n 6p "$tidied")" -v trailer="$(sed -n 16p "$tidied")" '
        function fill() { for (i = 0; i < 4; i++) { printf "%0200d\n", 0 } }
        function piece(variation, first, last, days, aircraft) {
            printf "%s%04d%02d%s%s%s%s%s%s%s%06d\n", substr(leg, 1, 5), flight, variation, substr(leg, 12, 3), date[first], date[last], days,
                substr(leg, 36, 37), aircraft, substr(leg, 76, 119), ++serial
        }
        { date[NR - 1] = $1 }
        END {
            print header; fill(); print carrier; fill()
            serial = 2
            for (flight = 1; flight <= flights; flight++) {
                own = flight % 7
                weekday = (own + 6) % 7 + 1
                others = "1234567"
                sub(weekday, " ", others)
                one = substr("       ", 1, weekday - 1) weekday substr("       ", 1, 7 - weekday)
                if (own == 0) { piece(1, 0, 98, one, "319"); piece(2, 1, 99, others, "320") }
                else { piece(1, 0, own == 1 ? 98 : 99, others, "320"); piece(2, own, own + 7 * int((99 - own) / 7), one, "319") }
            }
            printf "%s%06dE%06d\n", substr(trailer, 1, 187), serial, serial + 1
            fill()
        }' dates
}

leg=$(sed -n 11p "$tidied")
single_dates 30 > single.ssim
joined_dates 30 > joined.ssim
expect "records of single dates are joined" 0 @joined.ssim "" tidy single.ssim
expect "joined records are left as they are" 0 @joined.ssim "" tidy joined.ssim

taken=$'taken SSM 01JUN25 00001 001\n' conflict=$'refused 60 Conflict SSM 01JUN25 00001 001\n'

# The records of a data set without serials and check reference, as a desk file has them.
unnumbered() {
    sed -E 's/.{6}$/000000/; s/^(5.{186}).{6}/\1000000/' "$1"
}

# The files of the commands on desks. The desk files are by their format: the records of the data set without serials and
# check reference, between the lines.
desk_inputs() {
    local records
    records=$(unnumbered divided.ssim)
    mkdir folder
    touch none before after
    printf 'SSM\nUTC\n01JUN00001E001\nCNL\nLX544\n01JUL25 07JUL25 2\n' > x2
    printf 'SSM\nUTC\n01JUN00001E001\nCNL\nLX544\n02JUL25 02JUL25 3\n' > other
    printf 'SSIMDESK 2\nRECORDS 5\n%s\nSTATIONS 0\nTEXTS 0\nEND\n' "$records" > desk.expected
    printf 'SSIMDESK 2\nRECORDS 5\n%s\nSTATIONS 0\nTEXTS 1\nTEXT 51\n%s\nEND\n' "$records" "$(cat x2)" > held.expected
    printf 'DESKS 2\nTAKE 1 x2\nMERGE 2 1\nTAKE 2 other\n' > script
    printf '1 %s2 merged\n2 %sdesk 1 held 1 bytes 4020\ndesk 2 held 1 bytes 4020\nsame\n' "$taken" "$conflict" > rehearsed
}

# The commands that write a desk file.
desks_written() {
    expect "a desk starts" 0 $'held 0\n' "" start divided.ssim none desk
    expect_file "a desk starts" desk desk.expected
    input=divided.ssim expect "standard input is read once, and then empty" 0 $'held 0\n' "" start - - new
    expect_file "standard input is read once, and then empty" new desk.expected
    expect "a text is taken" 0 "$taken" "" take desk held x2
    expect_file "a text is taken" held held.expected
    input=x2 expect "a text comes from standard input" 0 "$taken" "" take desk new -
    expect_file "a text comes from standard input" new held.expected
    expect "a file is input and output" 0 $'repeated SSM 01JUN25 00001 001\n' "" take new new x2
    expect_file "a file is input and output" new held.expected
    expect "two desks merge into one of them" 0 $'held 1\n' "" merge desk new new
    expect_file "two desks merge into one of them" new held.expected
    rm new
}

# Refusals of these commands, after which no file is written.
desks_refused() {
    ls -a > before
    expect "a text is refused" 1 "" "$conflict" take held held other
    expect_file "a text is refused" held held.expected
    expect "the second text is refused" 1 "$taken" "$conflict" take desk new x2 other
    expect "standard input is no output" 1 "$taken" $'refused 91 File -\n' take desk - x2
    expect "a desk is not written to standard output" 1 "" $'refused 91 File -\n' start divided.ssim none -
    sent=$'text SSM 02JUN25 00001 001 subs 1\ntexts 1 subs 1 unsaid dates 0\n'
    expect "texts are not written to standard output" 1 "$sent" $'refused 91 File -\n' publish desk held 02JUN00001E001 -
    expect "a data set is not written to standard output" 1 "" $'refused 91 File -\n' convert utc divided.ssim -
    expect "a time mode is none" 2 "" "~the words name no command" convert UTC divided.ssim new
    expect "a folder is no output" 1 "$taken" $'refused 91 File folder\n' take desk folder x2
    expect "the folder of the output is missing" 1 "" $'refused 91 File none/new\n' merge desk held none/new
    expect "a folder is no input" 1 "" $'refused 91 File folder\n' findings folder
    input=desk expect "the second reading of standard input is empty" 1 "" $'refused 62 DeskFile offset 0\n' merge - - new
    to=/dev/full expect "the answer cannot be written" 1 "" $'refused 52 WriteFault\n' take desk new x2
    ls -a > after
    expect_file "nothing is left after a refusal" after before
    to=/dev/full expect "a desk is written before its line" 1 "" $'refused 52 WriteFault\n' start divided.ssim none new
    expect_file "a desk is written before its line" new desk.expected
}

# The commands that only print.
desks_printed() {
    input=held expect "a flight date is shown" 0 $'LX544 01JUL25\nno flight\n' "" show - LX544 01JUL25
    for date in 02JUL25 2jul25 '2 Jul 2025' 02jul2025 2025-07-02; do
        expect "a flight has its legs" 0 $'LX544 02JUL25\n01 ZRH 0545 0545 +0200 LHR 0700 0700 +0100 00 J 320\n' "" \
            show held LX0544 "$date"
    done
    expect "a flight of the file's airline" 0 $'LX544 01JUL25\nno flight\n' "" show held 544 01JUL25
    expect "no date has two readings" 1 "" $'refused 1 BadDate\n' show held 544 02/07/2025
    expect "findings" 0 $'SSM 01JUN25 00001 001 1 CNL LX544 acted 1 absent 0 present 0 leg 0 station 0\n' "" findings held
    expect "findings of a flight" 0 $'SSM 01JUN25 00001 001 1 CNL LX544 acted 1 absent 0 present 0 leg 0 station 0\n' "" findings held 544
    expect "findings of what did not act" 0 "" "" findings --not-acted held
    expect "findings of another airline" 1 "" $'refused 41 Airline sub 0\n' findings held XX544
    expect "findings of no flight" 1 "" $'refused 6 BadDesignator\n' findings held XX544 54Z4
    expect "findings of a date" 0 $'SSM 01JUN25 00001 001 1 CNL LX544 acted 1 absent 0 present 0 leg 0 station 0\n' "" \
        findings --from 1jul25 --to 2025-07-01 held 544
    expect "findings of other dates" 0 "" "" findings --from 02JUL25 held
    expect "findings to a date" 0 "" "" findings held --to 30jun25
    expect "findings of no date" 1 "" $'refused 1 BadDate\n' findings --to 31JUN25 --from 1jul25 held XX544
    expect "findings of turned dates" 1 "" $'refused 43 Period sub 0\n' findings --to 30JUN25 --from 1jul25 held
    expect "findings of dates twice" 2 "" "~the argument '--to <DATE>' cannot be used multiple times" findings --to 30JUN25 --to 1jul25 held
    expect "texts of other dates" 0 "" "" texts --from 02JUL25 held
    expect "texts of a date" 0 @x2 "" texts held --to 1jul25 --from 1jul25 544
    expect "texts of another flight on a date" 0 "" "" texts held --to 1jul25 540
    expect "texts of no flight" 1 "" $'refused 6 BadDesignator\n' texts --to 31JUN25 held 54Z4
    expect "texts of another airline" 1 "" $'refused 41 Airline sub 0\n' texts --from 2jul25 --to 1jul25 held XX544
    expect "a desk without texts is exported" 0 "@$tidied" "" export desk
    to=/dev/full expect "an export cannot be written" 1 "" $'refused 52 WriteFault\n' export held
    expect "a rehearsal" 0 @rehearsed "" rehearse divided.ssim none script
    input=script expect "a script comes from standard input" 0 @rehearsed "" rehearse divided.ssim none -
    expect "a desk file is too long" 1 "" $'refused 91 File too_long.ssim\n' export too_long.ssim
    expect "a desk file may be as long as the limit" 1 "" $'refused 62 DeskFile offset 0\n' export longest.ssim
}

# A file that may be a desk file or a data set is looked at first, and read once.
either_printed() {
    input=divided.ssim expect "a data set comes from standard input" 0 $'same\n' "" diff - divided.ssim
    input=desk expect "a desk comes from standard input" 0 $'same\n' "" diff divided.ssim -
    mkfifo pipe
    cat divided.ssim > pipe &
    expect "a data set comes from a pipe" 0 $'same\n' "" diff pipe desk
    cat desk > pipe &
    expect "a desk comes from a pipe" 0 $'same\n' "" diff divided.ssim pipe
    wait
    rm pipe
    printf 'SSIMDESK' > short
    expect "a data set is shorter than the first word of a desk file" 1 "" $'refused 10 Short record 1\n' list short
    expect "a file is too long for a desk or a data set" 1 "" $'refused 91 File too_long.ssim\n' list too_long.ssim
    expect "a missing file is not listed" 1 "" $'refused 91 File missing.ssim\n' list missing.ssim
    expect "a folder is not listed" 1 "" $'refused 91 File folder\n' list folder
}

explained="refused 12 BadColumn record 3 column 37
BadColumn: the field that begins there is invalid
what to do: compare it with the field's row in docs/FORMATS.md
"
expect "a number is explained" 0 "$explained" "" explain 12
broken="refused 12 BadColumn record 3 column 37
BadColumn: the field that begins there is invalid
record: [$(sed -n 3p broken.ssim)]
field: station of departure, columns 37 to 39
found: [Z1H]
allowed: three letters
what to do: compare it with the field's row in docs/FORMATS.md
"
expect "an invalid file is explained" 0 "$broken" "" explain broken.ssim
expect "a number that no refusal has" 0 $'no refusal has the number 99\n' "" explain 99
expect "a valid file is explained" 0 $'valid data set\n' "" explain divided.ssim
input=divided.ssim expect "standard input is explained" 0 $'valid data set\n' "" explain -
printf '\n\r\nZRH 30MAR25 25OCT25 +0200\n' > rows
expect "empty lines do not tell the kind" 0 $'valid station table\n' "" explain rows
expect "a missing file is not explained" 1 "" $'refused 91 File missing.ssim\n' explain missing.ssim
to=/dev/full expect "an explanation cannot be written" 1 "" $'refused 52 WriteFault\n' explain 12

# A data set of five megabytes, and its desk files.
long_files() {
    single_dates 250 > long.ssim
    joined_dates 250 > long.joined
    {
        printf 'SSIMDESK 2\nRECORDS 25003\n'
        unnumbered long.ssim
        printf 'STATIONS 0\nTEXTS 0\nEND\n'
    } > long.expected
    expect "a long data set is joined" 0 @long.joined "" tidy long.ssim
    input=long.ssim expect "a long data set comes from standard input" 0 @long.joined "" tidy -
    expect "a desk starts from a long data set" 0 $'held 0\n' "" start long.ssim none long
    expect_file "a desk starts from a long data set" long long.expected
    expect "a long desk takes a text" 0 "$taken" "" take long long.held x2
    expect "long desks merge" 0 $'held 1\n' "" merge long long.held long.merged
    expect_file "long desks merge" long.merged long.held
    input=long.held expect "a long desk is exported" 0 @long.joined "" export -
    expect "a long desk shows its last flight" 0 $'LX250 07JUL25\n01 ZRH 0545 0545 +0200 LHR 0700 0700 +0100 00 J 320\n' "" \
        show long.held LX250 07JUL25
    head -c 3000000 long.held > long.cut
    expect "a long desk is cut" 1 "" $'refused 62 DeskFile offset 2999950\n' findings long.cut
}

desk_inputs
desks_written
desks_refused
desks_printed
either_printed
long_files
for name in $names; do
    expect "help of $name" 0 @ "" "$name" --help
    expect "$name without its words" 2 "" @ "$name"
done
expect "help" 0 "~Usage: ssimdesk <COMMAND>" "" --help
expect "help of a command by its name" 0 "~Usage: ssimdesk tidy <DATASET>" "" help tidy
expect "short help" 0 "~Usage: ssimdesk check <DATASET>" "" check -h
expect "no words" 2 "" "~requires a subcommand"
expect "a file is not named" 2 "" "~required arguments were not provided" tidy
expect "a word too many" 2 "" "~unexpected argument 'b' found" tidy a b
expect "an option twice" 2 "" "~the argument '--from <DATE>' cannot be used multiple times" select --from 1jul27 --from 2jul27 a
expect "an unknown option" 2 "" "~unexpected argument '-x' found" tidy -x
expect "an unknown command with words" 2 "" "~unrecognized subcommand 'fly'" fly a b c

echo "$passed passed, $failed failed"
[ $failed -eq 0 ]
