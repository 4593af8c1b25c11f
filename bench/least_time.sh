# For the other scripts of this folder, which read it.

# The least wall time of some rounds in nanoseconds, of a program that is given a text: least_time PROGRAM TEXT ROUNDS.
least_time() {
    least=
    round=0
    while [ "$round" -lt "$3" ]; do
        start=$(date +%s%N)
        printf %s "$2" | "$1" >/dev/null || exit 1
        took=$(($(date +%s%N) - start))
        if [ -z "$least" ] || [ "$took" -lt "$least" ]; then least=$took; fi
        round=$((round + 1))
    done
    echo "$least"
}
