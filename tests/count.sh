# Sourced by every test: a folder to work in, and the counts of what passed and failed.
work=$(mktemp -d)
trap 'rm -rf "$work"' EXIT
passed=0
failed=0

# Counts one for what the status of a part says.
told() {
    if [ "$1" = 0 ]; then passed=$((passed + 1)); else failed=$((failed + 1)); echo "FAILED: $2"; fi
}

# The last line, and the status to end with.
ended() {
    echo "$passed passed, $failed failed"
    [ "$failed" = 0 ]
}
