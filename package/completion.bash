# Completion of rstore's words for bash: options, files, and the names of layers of a file that is on the line.
_rstore() {
    local word=${COMP_WORDS[COMP_CWORD]} before=${COMP_WORDS[COMP_CWORD - 1]} it
    case $before in
    --draw | --import)
        # the layers of the last word that names a file; a reader writes nothing
        for it in "${COMP_WORDS[@]:1}"; do
            [ -f "$it" ] || continue
            mapfile -t COMPREPLY < <(compgen -W "$(echo layers | "${COMP_WORDS[0]}" --read-only "$it" 2>/dev/null |
                sed 1d | cut -d ' ' -f 1)" -- "$word")
        done
        return
        ;;
    --format) it="2 3" ;;
    --axes) it="2 3" ;;
    --cache) it="64 1024 4096" ;;
    --columns | --scale) return ;;
    *)
        case $word in
        -*)
            it="--cache --format --create --read-only --strict --draw --stats --json --import --columns --scale --axes
                --geojson --help --version"
            ;;
        *)
            compopt -o filenames 2>/dev/null
            mapfile -t COMPREPLY < <(compgen -f -- "$word")
            return
            ;;
        esac
        ;;
    esac
    mapfile -t COMPREPLY < <(compgen -W "$it" -- "$word")
}
complete -F _rstore rstore
