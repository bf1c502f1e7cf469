#!/bin/sh
# Runs each script that is named with $CLSIM, or with the clsim on the path, and shows the first fault, refusal or bad
# line of each: FILE:LINE of its command, and below it the explanation where `clsim explain` has one of that fault,
# refusal or source, else the line itself. A file named *.cl is a source: it is checked, and where it isn't in Clsim's
# language, clsim-kernel beside the program or on the path builds it as OpenCL C, as the driver does. What doesn't build
# is shown with the errors of clang, else it is explained.
# Where $SARIF names a file, these and the explanations are written there as SARIF 2.1.0, which takes Python 3.
# $CLSIM_WORKERS, $CLSIM_BUDGET and $CLSIM_LIMITS, where they are set, are the options of the program by these names.
# Status 0 if there are none, else 1, and 2 where there is no such program, nothing is named, or the file can't be
# written.
CLSIM=${CLSIM:-clsim}
if ! command -v "$CLSIM" >/dev/null; then
    echo "ci.sh: no program: $CLSIM" >&2
    exit 2
fi
if [ $# -eq 0 ]; then
    echo "ci.sh: no scripts and no sources" >&2
    exit 2
fi
folder=$(mktemp -d) || exit 2
trap 'rm -rf "$folder"' EXIT

# Writes `LINE: REPLY` of the first reply that isn't ok, data, clean or ordered, and in a second line its command; of a
# bad line the same; and ` REPLY` alone where no line is told. $1 is the script, $2 the status of its run.
# Replies and commands are one to one, in order. The line of a version is none, nor are the lines of a source, nor, in a
# script by hand, empty lines and comments.
first_reply() {
    unended=$(tail -c 1 "$1" 2>/dev/null | tr -d '\n' | wc -c)
    cat "$1" 2>/dev/null | LC_ALL=C awk -v status="$2" -v unended="$unended" '
        # Shows a line of the script, without its end where it is long, and says so of the end of a line of Windows.
        function show(text) {
            if (length(text) > 160) {
                text = substr(text, 1, 160)
                sub(/[\300-\377]?[\200-\277]*$/, "", text)
                text = text ".."
            }
            gsub(/\t/, "    ", text)
            gsub(/\r/, "\\r", text)
            printf "%d: %s\n%8d |%s\n", line, reply, line, text == "" ? "" : " " text
            shown = 1
            exit
        }
        # The words of a line, with a space between each two.
        function spaced(text) {
            gsub(/[ \t\r]+/, " ", text)
            gsub(/^ | $/, "", text)
            return text
        }
        # The same without its comment.
        function plain(text) {
            sub(/#.*/, "", text)
            return spaced(text)
        }
        !script && reply == "" && !/^(ok|clean|ordered)$|^data / {
            reply = $0
            answered = FNR
            if (/^clsim: line [0-9]+: bad line$/) bad = $3 + 0
        }
        !script { next }
        { line++ }
        line == 1 && plain($0) == "clsim 3" { by_hand = 1; next }
        bad && line < bad { next }
        bad {
            reply = "bad line"
            text = $0
            if (unended + 0 && !by_hand && (getline rest) <= 0) reply = "bad line, without its line feed"
            show(text)
        }
        left > 0 { left--; next }
        until != "" { if (spaced($0) == until) until = ""; next }
        line == 1 && $0 == "clsim 2" { next }
        by_hand && plain($0) == "" { next }
        ++command == answered { show($0) }
        $1 == "program" { left = $3 + 0 }
        by_hand && $1 == "program" && $3 == "until" { until = plain($4) }
        END { if (!shown) print " " (reply == "" ? "the program ended with status " status : reply) }
    ' "$folder/replies" script=1 - | LC_ALL=C tr '\000-\010\013-\037\177' '[?*]'
}

# Whether a source builds: in Clsim's own language, or as OpenCL C on the driver. (Its kernels are then listed.)
# shellcheck disable=SC2086
builds() {
    : >"$folder/errors" >"$folder/said"
    "$CLSIM" check "$1" $limits >"$folder/replies" 2>&1 && return
    [ -n "$kernels" ] || return 1
    CLSIM_SERVE=${CLSIM_SERVE:-"$CLSIM serve"} "$kernels" "$1" $limits >"$folder/listed" 2>"$folder/said" </dev/null
    grep -q '^kernel ' "$folder/listed" || grep -q ' has no kernel$' "$folder/said" && return
    grep -E '^[^:]+:[0-9]+:[0-9]+: (fatal )?error: ' "$folder/said" >"$folder/errors"
    return 1
}

# Shows why a source doesn't build, and keeps it: the errors of clang, else the explanation.
# shellcheck disable=SC2086
show_source() {
    if [ -s "$folder/errors" ]; then
        cat "$folder/errors"
        sed 1q "$folder/errors" >>"$folder/explained"
        return
    fi
    told=$("$CLSIM" explain "$1" $limits 2>/dev/null) || told=
    if [ -n "$told" ]; then printf '%s\n' "$told"; else printf '%s: %s\n' "$1" "$(sed 1q "$folder/replies")"; fi
    # (without clang nothing reads OpenCL C)
    sed -n '/^cannot start /p' "$folder/said"
    [ -z "${SARIF:-}" ] || "$CLSIM" explain "$1" $limits --format json 2>/dev/null >>"$folder/explained"
}

kernels=$(dirname "$(command -v "$CLSIM")")/clsim-kernel
[ -x "$kernels" ] || kernels=$(command -v clsim-kernel)
failed=0
limits=${CLSIM_LIMITS:+--limits $CLSIM_LIMITS}
device="${CLSIM_BUDGET:+--budget $CLSIM_BUDGET} $limits"
for script in "$@"; do
    case $script in *.cl)
        builds "$script" || { failed=1; show_source "$script"; }
        continue ;;
    esac
    # (CLSIM_WORKERS, CLSIM_BUDGET and CLSIM_LIMITS are options of the program, as for the driver)
    # shellcheck disable=SC2086
    "$CLSIM" run "$script" ${CLSIM_WORKERS:+--workers $CLSIM_WORKERS} $device >"$folder/replies" 2>&1 && continue
    first_reply "$script" $? >"$folder/first"
    failed=1
    first=$(sed 1q "$folder/first")
    printf '%s:%s\n' "$script" "$first"
    # (the explanation is that of the first fault or refusal; of want of memory and of a bad line there is none)
    case $first in
        [0-9]*': fault '* | [0-9]*': refused '*)
            # shellcheck disable=SC2086
            told=$("$CLSIM" explain "$script" $device 2>/dev/null) || told= ;;
        *) told= ;;
    esac
    if [ -n "$told" ]; then printf '%s\n' "$told"; else sed 1d "$folder/first"; fi
    [ -n "${SARIF:-}" ] || continue
    if [ -z "$told" ]; then
        case $first in [0-9]*) printf '%s:%s\n' "$script" "$first" >>"$folder/explained" ;; esac
    fi
    # shellcheck disable=SC2086
    told=$("$CLSIM" explain "$script" $device --format json 2>/dev/null)
    # (of a script that lacked memory or has a bad line there is none)
    case $told in '{'*) printf '%s\n' "$told" >>"$folder/explained" ;; esac
done
if [ -n "${SARIF:-}" ]; then
    : >>"$folder/explained"
    python3 -B "$(dirname "$0")/../tools/explain/sarif.py" "$folder/explained" >"$SARIF" || exit 2
fi
exit $failed
