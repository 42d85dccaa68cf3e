# For tests to read in: counts what was found true and what not.
passed=0
failed=0

# says NAME COMMAND..: the command is true
says() {
    said=$1
    shift
    if "$@"; then
        passed=$((passed + 1))
    else
        failed=$((failed + 1))
        echo "failed: $said"
        [ ! -f err ] || sed 's/^/    standard error: /' err
    fi
}

# add STATUS LAST: counts a whole test by its exit status and its last line, 'N passed, M failed', into these two.
# One that ends otherwise, or with another exit status than 0, is one failure more.
add() {
    its_passed=0 its_failed=0
    case $2 in
    *[0-9]' passed, '[0-9]*' failed')
        its_passed=${2%% passed*}
        its_failed=${2##*passed, }
        its_failed=${its_failed%% failed*}
        [ "$1" = 0 ] || [ "$its_failed" != 0 ] || its_failed=1
        ;;
    *) its_failed=1 ;;
    esac
    passed=$((passed + its_passed))
    failed=$((failed + its_failed))
}

# the last line, and the exit status: a test that looked at nothing has failed
end() {
    echo "$passed passed, $failed failed"
    [ "$failed" = 0 ] && [ "$passed" != 0 ]
}
