# Sourced, by .ci/run and tests/all: runs commands that end in a line 'N passed, M failed' and adds their counts up.
# shellcheck shell=bash
passed=0 failed=0
declare -A ahead

# Begins a group's command before its turn, beside those that come before it: 'group NAME' then waits for it.
begin() { # NAME COMMAND [ARGUMENT ..]
    local name=$1 room
    shift
    room=$(mktemp -d)
    ahead[$name]=$room
    (
        SECONDS=0
        "$@" >"$room/said" 2>&1
        echo "$?" >"$room/status"
        echo "$SECONDS" >"$room/took"
    ) &
}

# Whether one that was begun has ended.
ended() { # NAME
    [ -s "${ahead[$1]}/took" ]
}

# What a command said that was begun before, and its status.
awaited() { # ROOM
    until [ -s "$1/took" ]; do sleep 0.2; done
    cat "$1/said"
    return "$(cat "$1/status")"
}

# Runs a command, or waits for the one that was begun under the name, shows what it says as it comes, and gives its seconds and its count under the
# name in place of its last line. One that ends in another line, says 0 failed with a bad status, or tested nothing, has failed.
group() { # NAME [COMMAND [ARGUMENT ..]]
    local name=$1 said status last good=0 bad=1 begun=$SECONDS took room
    shift
    room=${ahead[$name]:-}
    [ -z "$room" ] || set -- awaited "$room"
    said=$(mktemp)
    "$@" 2>&1 | tee "$said" | sed -u '$d'
    status=${PIPESTATUS[0]}
    last=$(tail -n 1 "$said")
    took=$((SECONDS - begun))
    [ -z "$room" ] || took=$(cat "$room/took")
    rm -rf "$said" "$room"
    if [[ $last =~ ^([0-9]+)\ passed,\ ([0-9]+)\ failed$ ]]; then
        good=${BASH_REMATCH[1]} bad=${BASH_REMATCH[2]}
        ((bad > 0 || (status == 0 && good > 0))) || bad=1
    else
        echo "$last"
    fi
    ((passed += good, failed += bad))
    echo "$name took $took s"
    echo "$name: $good passed, $bad failed"
}

# The last line, and the status.
total() {
    echo "$passed passed, $failed failed"
    ((passed > 0 && failed == 0))
}
