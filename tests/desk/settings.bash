# The part `settings` of tests/desk/run: locales, NO_COLOR, terminals.
# shellcheck shell=bash disable=SC2154

# No function whose answer is the locale's is called: none that sets one, that knows letters, or that reads numbers.
no_locale() {
    local found names='setlocale|localeconv|nl_langinfo|strcoll|strxfrm|strftime|strn?casecmp|tow?(upper|lower)'
    names+='|__ctype_.*|isw?(al|bl|cn|di|gr|lo|pr|pu|sp|up|xd)[a-z]*|(__isoc[0-9]+_)?(strto.*|ato[fil]+|[fs]?scanf)'
    names+='|mb.*towcs?|wc.*tombs?'
    found=$(nm -A -u "$objects"/*/*.o | grep -E " ($names)\$") || true
    [ -z "$found" ] || { echo "$found"; fail "the desk calls functions of the locale"; }
}

# The same words under a locale.
under() { # LOCALE SETTINGS...
    run env LC_ALL="$1" LANG="$1" "${@:2}" "$plain" plan samples/quiet.day
    cmp "$folder/out" "$expected/plan/quiet.txt" || fail "plan under the locale $1"
    run env LC_ALL="$1" LANG="$1" "${@:2}" "$plain" plan samples/faulty.day
    cmp "$folder/err" "$expected/plan/faulty.messages" || fail "messages under the locale $1"
}

# A command on a terminal of so many columns, which `script` makes.
on_terminal() { # COLUMNS SETTING ARGUMENTS
    script -qec "stty cols $1 2>/dev/null; $2 '$plain' $3" /dev/null </dev/null | tr -d '\r' >"$folder/terminal" || true
    [ -s "$folder/terminal" ] || fail "nothing is said on a terminal"
    runs=$((runs + 1))
}

terminals() {
    local columns widest escape=$'\e' days='plan samples/quiet.day samples/moves.day'
    for columns in 60 80 132; do
        on_terminal "$columns" "NO_COLOR= TERM=xterm" "$days"
        grep -q "$escape" "$folder/terminal" || fail "there is no colour on a terminal"
        on_terminal "$columns" "NO_COLOR=1 TERM=xterm" "$days"
        ! grep -q "$escape" "$folder/terminal" || { cat -v "$folder/terminal"; fail "there is colour under NO_COLOR"; }
        widest=$(sed 's/[\x80-\xBF]//g' "$folder/terminal" | awk '{ print length($0) }' | sort -n | tail -n 1)
        [ "$widest" -le "$columns" ] || fail "a line of $widest columns on a terminal of $columns"
        [ "$columns" -lt 132 ] || [ "$widest" -gt 80 ] || fail "a terminal of 132 columns is used up to $widest only"
    done
    on_terminal 80 "NO_COLOR=1 TERM=xterm" "best samples/full.day"
    grep -q 'samples/full.day.*512 jobs' "$folder/terminal" || fail "best of a full day shows no progress on a terminal"
    on_terminal 80 "" "sheet samples/quiet.day"
    ! grep -aq $'\x11' "$folder/terminal" || fail "a sheet is written to a terminal"
}

part_settings() {
    local locale
    no_locale
    for locale in POSIX C.utf8 de_DE.utf8; do
        ! locale -a 2>/dev/null | grep -qxF "$locale" || under "$locale"
    done
    if localedef -i tr_TR -f UTF-8 "$folder/tr_TR.utf8" 2>/dev/null; then
        under tr_TR.utf8 "LOCPATH=$folder"
    fi
    NO_COLOR=1 run "$plain" plan samples/quiet.day
    cmp "$folder/out" "$expected/plan/quiet.txt" || fail "plan under NO_COLOR, not on a terminal"
    COLUMNS=200 TERM=xterm-256color run "$plain" plan samples/quiet.day
    cmp "$folder/out" "$expected/plan/quiet.txt" || fail "the width is that of the terminal or 80"
    if command -v script >/dev/null; then
        terminals
    else
        echo "desk: there is no script(1), so nothing was tried on a terminal"
    fi
}
