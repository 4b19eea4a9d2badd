# For scripts that want a tool which the machine may lack.

# Ends the script with what lacks, as skipped, by the status 77, or as failed where CI is set.
skip() {
    echo "skipped: $1"
    [ -z "${CI-}" ] || exit 1
    exit 77
}
