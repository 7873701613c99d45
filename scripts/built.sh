# For scripts that need what the kit builds (read by '.', at the root of the repository): 'built FILE COMMAND..' runs the command where
# the file is missing or older than a source. All that it says goes to standard error. 'fail' says why a script ends.
fail() {
    echo "${0##*/}: $1" >&2
    exit 1
}

built() {
    file=$1
    shift
    if [ -f "$file" ] && [ -z "$(find crates crates.txt -name out -prune -o -newer "$file" -print)" ]; then return; fi
    command -v rt >/dev/null || fail "$file has to be built, and the command 'rt' of the Rattle kit is not there"
    { mkdir -p target && : >"target/${0##*/}.began"; } || fail 'cannot write to target/'
    echo "${0##*/}: building $file, which takes some minutes where nothing is proved yet" >&2
    if ! "$@" </dev/null >&2; then
        # older than every source: it is not used before a build succeeds
        touch -c -t 197001020000 "$file"
        fail "'$*' failed, so there is no $file to use"
    fi
    [ -f "$file" ] || fail "'$*' succeeded and $file is missing: remove target/ and try again"
    # the kit leaves the file as it is where only its date was old, and a source that was changed during the build is newer than this
    touch -r "target/${0##*/}.began" "$file"
}
