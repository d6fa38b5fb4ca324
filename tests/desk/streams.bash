# The part `streams` of tests/desk/run: files that are too large, absent, no files or oddly named; outputs that are full
# or closed; pipes.
# shellcheck shell=bash disable=SC2154

# A command line by both commands must end with this status and say this on stderr.
refuses() { # STATUS WORDS ARGUMENTS...
    local wanted=$1 words=$2 binary
    shift 2
    for binary in "${commands[@]}"; do
        run "$binary" "$@"
        [ "$status" = "$wanted" ] || { cat "$folder/err"; fail "yinqocha $* ends with $status, not $wanted"; }
        grep -qF -- "$words" "$folder/err" || { cat "$folder/err"; fail "yinqocha $* does not say '$words'"; }
    done
}

# With a standard output that is full or closed both commands must fail and say so.
fails_on_output() { # OUTPUT ARGUMENTS...
    local output=$1 binary
    shift
    for binary in "${commands[@]}"; do
        status=0
        case $output in
        closed) "$binary" "$@" >&- 2>"$folder/err" || status=$? ;;
        *) "$binary" "$@" >"$output" 2>"$folder/err" || status=$? ;;
        esac
        runs=$((runs + 1))
        [ "$status" = 2 ] || { cat "$folder/err"; fail "yinqocha $* with $output stdout ends with $status, not 2"; }
        grep -qF 'standard output cannot be written' "$folder/err" ||
            { cat "$folder/err"; fail "yinqocha $* does not say that stdout ($output) cannot be written"; }
    done
}

part_streams() {
    truncate -s 5M "$folder/large.day" "$folder/large.sheet"
    head -c 5000000 /dev/zero | tr '\0' '#' >"$folder/large-text.day"
    { echo 'benches 2'; echo 'share 4/7'; echo 'target 9'; echo 'jobs large.csv'; } >"$folder/jobs.day"
    truncate -s 5M "$folder/large.csv"
    mkdir "$folder/folder.day"
    local command
    for command in plan best show sheet; do
        refuses 2 'more than 4 MiB' "$command" "$folder/large-text.day"
        refuses 2 'fault 1' "$command" "$folder/large.day"
        refuses 2 'fault 1' "$command" "$folder/large.sheet"
        refuses 2 'large.csv" has more than 4 MiB' "$command" "$folder/jobs.day"
        refuses 2 folder.day "$command" "$folder/folder.day"
        refuses 2 absent.day "$command" "$folder/absent.day"
        fails_on_output /dev/full "$command" samples/quiet.day
        fails_on_output closed "$command" samples/quiet.day
    done
    refuses 2 large-text.day check samples/quiet.day --list "$folder/large-text.day"
    refuses 2 large-text.day check samples/quiet.day --page "$folder/large-text.day"
    refuses 2 absent check samples/quiet.day --list "$folder/absent"
    refuses 2 folder.day compare samples/quiet.day "$folder/folder.day" tests/desk/papers/quiet.list
    refuses 2 nowhere plan --html "$folder/nowhere/page.html" samples/quiet.day
    refuses 2 nowhere sheet -o "$folder/nowhere/day.sheet" samples/quiet.day
    fails_on_output /dev/full plan --json samples/quiet.day
    fails_on_output /dev/full check samples/moves.day --set 0,1
    fails_on_output /dev/full --help
    written_over
    odd_names
    if [ "$(id -u)" -ne 0 ]; then
        cp samples/quiet.day "$folder/unreadable.day" && chmod 000 "$folder/unreadable.day"
        refuses 2 unreadable.day plan "$folder/unreadable.day"
    fi
    pipes
}

# What is read, and what is no page or sheet, is not written over.
written_over() {
    local output
    cp samples/quiet.day samples/spreadsheet.day samples/spreadsheet.csv "$folder"
    ln -sf quiet.day "$folder/link.day"
    for output in quiet.day link.day spreadsheet.csv; do
        refuses 3 'not written over' plan --html "$folder/$output" "$folder/quiet.day" "$folder/spreadsheet.day"
        refuses 3 'not written over' sheet -o "$folder/$output" "$folder/quiet.day"
        refuses 3 'not written over' sheet -o "$folder/$output" "$folder/spreadsheet.day"
    done
    for output in quiet.day spreadsheet.day spreadsheet.csv; do
        cmp "$folder/$output" "samples/$output" || fail "$output was written over"
    done
    # A byte of 0 makes no sheet.
    head -c 4096 "$plain" >"$folder/other.bin"
    refuses 3 'not written over' sheet -o "$folder/other.bin" "$folder/quiet.day"
    cmp -n 4096 "$folder/other.bin" "$plain" || fail "a binary file was written over"
}

# A file whose name has an escape sequence and a byte that is no UTF-8: nothing of it goes to a terminal as it is.
odd_names() {
    local odd=$folder/$'odd\e[31m\xff"<x>.day' escape=$'\e' form day
    for day in samples/quiet.day samples/faulty.day; do
        cp "$day" "$odd"
        for form in --json --lines "--html=$folder/odd.html" ''; do
            run "$plain" plan ${form:+"$form"} "$odd"
            ! grep -aq "$escape" "$folder/out" "$folder/err" || fail "an escape sequence in a file's name is printed"
        done
        ! grep -aq "$escape" "$folder/odd.html" || fail "an escape sequence in a file's name is on a page"
    done
}

# A day, a sheet and a list from standard input; a sheet into a file; and the way there and back again.
pipes() {
    local binary to=$folder/quiet
    for binary in "${commands[@]}"; do
        "$binary" plan --lines - <samples/quiet.day >"$folder/out" || fail "plan of a day from a pipe"
        cmp "$folder/out" "$expected/plan/quiet.lines" || fail "plan of a day from a pipe"
        "$binary" check --lines samples/quiet.day --list - <"$folder/out" >"$folder/checked" ||
            fail "a plan through a pipe to its check"
        grep -q '^passed 450 0$' "$folder/checked" || fail "the check of a plan says $(cat "$folder/checked")"
        "$binary" show --lines - <samples/booked.sheet | cmp - "$expected/show/sheet.lines" ||
            fail "show of a sheet from a pipe"
        "$binary" sheet -o "$to.sheet" samples/quiet.day || fail "sheet -o"
        "$binary" sheet samples/quiet.day | cmp - "$to.sheet" || fail "sheet and sheet -o differ"
        "$binary" show "$to.sheet" >"$to.day" || fail "show of a sheet"
        "$binary" sheet "$to.day" | cmp - "$to.sheet" || fail "a sheet, shown, gives another sheet"
        "$binary" plan --lines "$to.sheet" | cmp - "$expected/plan/quiet.lines" || fail "plan of a day's sheet"
        "$binary" show --csv samples/quiet.day >"$to.csv" || fail "show --csv"
        { sed -n '/^benches\|^share\|^target/p' samples/quiet.day; echo 'jobs quiet.csv'; } >"$folder/csv.day"
        "$binary" sheet "$folder/csv.day" | cmp - "$to.sheet" || fail "the CSV of a day gives another sheet"
        runs=$((runs + 10))
    done
}
