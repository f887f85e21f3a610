# Signs of life for the commands that prove: sourced by run and test, from the repository's root, in bash.
# beat LABEL passes its standard input, what rt says, on line by line, and where 15 s (HEARTBEAT) bring no line it says what rt is at and
# for how long, as told by the lines so far: a crate that a command begins with, one that `rt ci` has done, one whose edits it tries.
beat() {
    local label=$1 began=$SECONDS line part='' status
    beat_done=' ' beat_edits='' beat_now=''
    while :; do
        IFS= read -r -t "${HEARTBEAT:-15}" line
        status=$?
        if [ "$status" -gt 128 ]; then
            # A line that has only begun is kept for its rest.
            part=$part$line
            echo "$label: $(beat_at), $((SECONDS - began)) s so far"
        elif [ "$status" -eq 0 ] || [ -n "$part$line" ]; then
            printf '%s\n' "$part$line"
            beat_saw "$part$line"
            part=''
        fi
        [ "$status" -eq 0 ] || [ "$status" -gt 128 ] || return 0
    done
}

# The names of the crates that crates.txt lists, each with what it stands on.
crates_listed() {
    sed -n 's/^\([a-z_][a-z0-9_]*\)[^:]*:/\1:/p' crates.txt
}

# Takes note of a line of rt.
beat_saw() {
    case $1 in
    # rt ci says of a crate what it chose only once it is done with it, below a line '== NAME'.
    'rt: chose --jobs '*) [ "$beat_done$beat_edits" != ' ' ] || beat_now=${1##* } ;;
    '== '*) beat_now='' beat_done="$beat_done- " ;;
    'rt: '*': trying its must-fail edits ('*)
        set -- "${1#rt: }"
        beat_edits="$beat_edits${beat_edits:+, }${1%%:*}"
        ;;
    'rt: '*': its tests'*) ;;
    'rt: '*' proved' | 'rt: '*' is kept: '* | 'rt: '*' NOT PROVED'*)
        set -- "${1#rt: }"
        beat_done="$beat_done${1%% *} "
        ;;
    esac
}

# What rt is at: the crate that it began with last; of rt ci the crates that are not done while all they stand on is, and those whose edits
# it tries; then the programs.
beat_at() {
    local name deps dep ready now='' listed=' '
    if [ -n "$beat_now" ]; then
        echo "proving $beat_now"
        return
    fi
    while IFS=: read -r name deps; do listed="$listed$name "; done < <(crates_listed)
    while IFS=: read -r name deps; do
        ready=1
        for dep in $deps; do
            [[ $listed != *" $dep "* || $beat_done == *" $dep "* ]] || ready=0
        done
        [[ $ready -eq 0 || $beat_done == *" $name "* ]] || now="$now${now:+, }$name"
    done < <(crates_listed)
    if [ -n "$now" ]; then
        echo "proving $now${beat_edits:+, trying the edits that must be refused of $beat_edits}"
    else
        echo "all proved${beat_edits:+, trying the edits that must be refused of $beat_edits}"
    fi
}
