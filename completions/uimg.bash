# Made by scripts/completions.py from the helps of uimg.
_uimg() {
    local current=${COMP_WORDS[COMP_CWORD]} previous=${COMP_WORDS[COMP_CWORD - 1]}
    if test "$COMP_CWORD" = 1; then
        COMPREPLY=($(compgen -W 'mkimage dumpimage verify check unpack info map diff help -h --help --version' -- "$current"))
        return
    fi
    case "${COMP_WORDS[1]}" in
        mkimage)
            case "$previous" in
                -A) COMPREPLY=($(compgen -W 'arm x86 mips mips64 ppc powerpc sandbox arm64 x86_64 riscv' -- "$current")); return ;;
                -O) COMPREPLY=($(compgen -W 'netbsd linux vxworks qnx u-boot rtems plan9 arm-trusted-firmware tee opensbi efi' -- "$current")); return ;;
                -T) COMPREPLY=($(compgen -W 'standalone kernel ramdisk multi firmware script filesystem flat_dt kernel_noload' -- "$current")); return ;;
                -C) COMPREPLY=($(compgen -W 'none gzip bzip2 lzma lzo lz4 zstd' -- "$current")); return ;;
                -a) return ;;
                -e) return ;;
                -n) return ;;
                -p) return ;;
            esac
            test "${current#-}" = "$current" || { COMPREPLY=($(compgen -W '-A -O -T -C -a -e -n -d -f -E -p -l -h --help' -- "$current")); return; }
            ;;
        dumpimage)
            case "$previous" in
                -T) COMPREPLY=($(compgen -W 'standalone kernel ramdisk multi firmware script filesystem flat_dt kernel_noload' -- "$current")); return ;;
                -p) return ;;
            esac
            test "${current#-}" = "$current" || { COMPREPLY=($(compgen -W '-l -T -p -o -h --help' -- "$current")); return; }
            ;;
        verify)
            test "${current#-}" = "$current" || { COMPREPLY=($(compgen -W '-h --help' -- "$current")); return; }
            ;;
        check)
            case "$previous" in
                --need) COMPREPLY=($(compgen -W 'crc32 md5 sha1 sha256 sha384 sha512' -- "$current")); return ;;
                --config) return ;;
                --max-input) return ;;
            esac
            test "${current#-}" = "$current" || { COMPREPLY=($(compgen -W '--need --strict --key --config --allow-sha1 --recursive --files-from -0 --json --junit --quiet --allow-empty --max-input -h --help' -- "$current")); return; }
            ;;
        unpack)
            case "$previous" in
                -C) compopt -o dirnames; return ;;
                --only) return ;;
                --config) return ;;
                --need) COMPREPLY=($(compgen -W 'crc32 md5 sha1 sha256 sha384 sha512' -- "$current")); return ;;
                --max-files) return ;;
                --max-bytes) return ;;
                --max-input) return ;;
            esac
            test "${current#-}" = "$current" || { COMPREPLY=($(compgen -W '-C --only --config --need --key --allow-sha1 --force --keep-good --no-sync --max-files --max-bytes --max-input --json --clean -h --help' -- "$current")); return; }
            ;;
        info)
            case "$previous" in
                --max-input) return ;;
            esac
            test "${current#-}" = "$current" || { COMPREPLY=($(compgen -W '--json --max-input -h --help' -- "$current")); return; }
            ;;
        map)
            case "$previous" in
                --max-input) return ;;
            esac
            test "${current#-}" = "$current" || { COMPREPLY=($(compgen -W '--svg --force --max-input -h --help' -- "$current")); return; }
            ;;
        diff)
            test "${current#-}" = "$current" || { COMPREPLY=($(compgen -W '--json -h --help' -- "$current")); return; }
            ;;
        help)
            COMPREPLY=($(compgen -W 'mkimage dumpimage verify check unpack info map diff help' -- "$current"))
            return
            ;;
    esac
    compopt -o default
}
complete -F _uimg uimg
