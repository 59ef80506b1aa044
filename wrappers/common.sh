# What the wrappers mkimage and dumpimage share. `name` is the tool's name.

# Returns, in `real`, the path of a file through all links.
resolve() { real=$(readlink -f -- "$1"); }

# Returns, in `uimg`, the path of uimg by the old name.
find_uimg() {
    resolve "$0"
    case $real in
    */lib/uimg/wrappers/*) uimg=${real%/lib/uimg/wrappers/*}/bin/uimg-$name ;;
    *) uimg=$(command -v "uimg-$name") ;;
    esac
    test -x "$uimg" || fail "uimg-$name is not installed"
}

# Returns, in `original`, the path of U-Boot's own tool: UIMG_ORIGINAL_MKIMAGE or
# UIMG_ORIGINAL_DUMPIMAGE, or else the next one on PATH that is neither a wrapper nor uimg. Fails if
# there is none.
seek_original() {
    case $name in
    mkimage) original=${UIMG_ORIGINAL_MKIMAGE:-} ;;
    *) original=${UIMG_ORIGINAL_DUMPIMAGE:-} ;;
    esac
    if test -n "$original"; then
        test -f "$original" && test -x "$original" || fail "cannot run $original"
        return 0
    fi
    rest=$PATH:
    while test -n "$rest"; do
        original=${rest%%:*}/$name rest=${rest#*:}
        test "$original" != "/$name" || original=./$name
        test -f "$original" && test -x "$original" || continue
        is_ours "$original" || return 0
    done
    return 1
}

# The same; ends if there is none. $1 is the reason, for the error.
find_original() { seek_original || fail "$1 needs $name of u-boot-tools, which is not on PATH"; }

# Returns whether a program is uimg or a wrapper like this one: by its real name, by the script
# beside it, or by the version that it prints.
is_ours() {
    resolve "$1"
    case $real in
    */uimg) return 0 ;;
    esac
    test -f "${real%/*}/common.sh" && test "${real##*/}" = "$name" && return 0
    case $(UIMG_WRAPPER_LOG= "$1" -V 2>&1 < /dev/null) in
    *uimg*) return 0 ;;
    esac
    return 1
}

# Prints an error and ends, as for a file that cannot be read.
fail() {
    printf '%s: %s\n' "$name" "$1" >&2
    exit 3
}

# Appends a line to the file UIMG_WRAPPER_LOG: which program is called, or both, and the words.
log() {
    test -n "${UIMG_WRAPPER_LOG:-}" || return 0
    way=$1
    shift
    printf '%s\t%s\n' "$way" "$(printf '%s' "$name${*:+ $*}" | tr '\n' ' ')" >> "$UIMG_WRAPPER_LOG"
}

# Calls uimg with the words.
call_uimg() {
    log uimg "$@"
    find_uimg
    exec "$uimg" "$@"
}

# Calls the original with the words. $1 is the reason, for an error.
call_original() {
    find_original "$1"
    shift
    log original "$@"
    exec "$original" "$@"
}

# Returns whether uimg lists a file, by its first four bytes: a legacy image or a FIT. What cannot
# be read is left to uimg too, for its error.
is_known() {
    test -f "$1" && test -r "$1" || return 0
    case $(od -An -N4 -tx1 < "$1" | tr -d ' \n') in
    27051956 | d00dfeed) ;;
    *) return 1 ;;
    esac
}

# Returns whether uimg makes and lists the images of a type. What is no type is left to uimg too.
is_type() {
    case $(printf '%s' "$1" | tr '[:upper:]' '[:lower:]') in
    aisimage | atmelimage | gpimage | imx8image | imx8mimage | imximage | kwbimage | lpc32xximage | \
        mtk_image | mxsimage | omapimage | pblimage | rkimage | rksd | rkspi | socfpgaimage | \
        socfpgaimage_v1 | stm32image | sunxi_egon | sunxi_toc0 | ublimage | vybridimage | \
        x86_setup | zynqimage | zynqmpbif | zynqmpimage | firmware_ivt | \
        copro | fpga | pmmc | tee) return 1 ;;
    esac
}

# Reads the words of a command line as getopt_long does, and calls `take LETTER VALUE` for each
# option, `take '' WORD` for each operand. $1 and $2 are the letters of options without and with a
# value. Fails at an unknown option and a missing value.
read_words() {
    flags=$1 valued=$2
    shift 2
    while test $# -gt 0; do
        word=$1
        shift
        case $word in
        --) break ;;
        --*)
            letter=$(letter_of "${word%%=*}")
            case $letter:$word in
            :*) return 1 ;;
            *=*) take "$letter" "${word#*=}" ;;
            *)
                case $valued in
                *"$letter"*)
                    test $# -gt 0 || return 1
                    take "$letter" "$1"
                    shift
                    ;;
                *) take "$letter" '' ;;
                esac
                ;;
            esac
            ;;
        -?*)
            letters=${word#-}
            while test -n "$letters"; do
                rest=${letters#?}
                letter=${letters%"$rest"}
                letters=$rest
                case $letter in
                ["$flags"]) take "$letter" '' ;;
                ["$valued"])
                    if test -z "$rest"; then
                        test $# -gt 0 || return 1
                        rest=$1
                        shift
                    fi
                    take "$letter" "$rest"
                    letters=
                    ;;
                *) return 1 ;;
                esac
            done
            ;;
        *) take '' "$word" ;;
        esac
    done
    for word; do take '' "$word"; done
}
