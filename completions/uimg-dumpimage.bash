# Made by scripts/completions.py from the helps of uimg.
_uimg_dumpimage() {
    local current=${COMP_WORDS[COMP_CWORD]} previous=${COMP_WORDS[COMP_CWORD - 1]}
    case "$previous" in
        -p) return ;;
        -T) COMPREPLY=($(compgen -W 'standalone kernel ramdisk multi firmware script filesystem flat_dt kernel_noload' -- "$current")); return ;;
    esac
    test "${current#-}" = "$current" || { COMPREPLY=($(compgen -W '-l -o -p -T -h -V' -- "$current")); return; }
    compopt -o default
}
complete -F _uimg_dumpimage uimg-dumpimage
