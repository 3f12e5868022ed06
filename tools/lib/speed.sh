# Sourced behind prepare.sh, by measurements.

# least RUNS WORD..: the processor time of a command in microseconds, the least of so many runs. What it prints is thrown away.
least() { python3 "$root/tools/lib/measure.py" "$@" | cut -d ' ' -f 1; }
# ratio FORMAT A B: A divided by B in a format of printf, as %.2f.
ratio() { awk -v format="$1" -v a="$2" -v b="$3" 'BEGIN { printf format, a / b }'; }
