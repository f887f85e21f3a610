# proved.sh - sourced, from the repository's root, in bash: what the gate's `rt ci` left built, so that ./run and ./library do not prove it
# once more. `rt ci` leaves the bench program, and the libraries where none were built before it (those it puts back as they were).

# All that a proof reads, as one number.
proved_sources() {
    { rt version
        find crates.txt HANDLES crates/*/src crates/*/specs crates/*/proofs -type f 2>/dev/null | sort | xargs -d '\n' sha256sum
    } | sha256sum
}

# proved_note SOURCES FILE..: notes that these files were built of what was proved; SOURCES is its number from before the proof.
proved_note() {
    [ "$1" = "$(proved_sources)" ] && mkdir -p target && { echo "$1" && sha256sum "${@:2}"; } >target/proved.new && mv target/proved.new target/proved
}

# proved_holds FILE..: whether the gate proved what stands here now, and these files are those that it built of it.
proved_holds() {
    local file
    [ -f target/proved ] && [ "$(head -n 1 target/proved)" = "$(proved_sources)" ] || return
    for file in "$@"; do
        [ -f "$file" ] && grep -qxF "$(sha256sum "$file")" target/proved || return
    done
}
