# What a script of this folder does with its checks. Before it sources this file, it sets `script` to its name and
# `room` to its folder for files.
passed=0
failed=0
skipped=0

# check NAME COMMAND..: one check, which passes where the command does
check() {
    local name=$1
    shift
    if "$@" > "$room/log" 2>&1; then
        passed=$((passed + 1))
    else
        failed=$((failed + 1))
        echo "$script: FAILED: $name"
        tail -n 20 "$room/log"
    fi
}

# finds WORD..: grep that reads to the end, so that what writes to it does not fail
finds() {
    grep "$@" > /dev/null
}

# fails_with MESSAGE COMMAND..: the command fails and prints this
fails_with() {
    local message=$1
    shift
    if "$@" > "$room/failure" 2>&1 || ! grep -qF -e "$message" "$room/failure"; then
        echo "does not fail with '$message', but prints"
        cat "$room/failure"
        return 1
    fi
}

# check_with TEST NAME COMMAND..: a check that needs tools. TEST is one command, or several with && between them. If one of
# them fails, the check is skipped, because a tool is missing, or what it looks for. But a tool that is there and cannot
# print its version is a failed check.
check_with() {
    local part name=$2
    while read -r part; do
        eval "$part" > "$room/log" 2>&1 < /dev/null && continue
        if [[ $part =~ ^[^\ ]+\ (--)?version$ ]] && command -v "${part%% *}" > /dev/null; then
            failed=$((failed + 1))
            echo "$script: FAILED: $name: $part"
            head -n 5 "$room/log"
        else
            skipped=$((skipped + 1))
            echo "$script: skipped: $name ($part fails)"
        fi
        return
    done <<< "${1// && /$'\n'}"
    shift
    check "$@"
}

# need_built FILE..: ends the script if make build did not make these files of the sources
need_built() {
    if ! make -q "$@"; then
        echo "$script: FAILED: make build comes first"
        exit 1
    fi
}

# The last line, and the status.
report() {
    local skips=''
    [ "$skipped" = 0 ] || skips=", $skipped skipped"
    echo "$script: $passed passed, $failed failed$skips"
    [ "$failed" = 0 ]
}
