#!/bin/sh
# scripts/needs.sh COMMAND..: says in one line what to install for the commands that are missing. A
# gcc needs the C library as an archive too, for static programs.
has() {
    command -v "$1" > /dev/null || return 1
    case $1 in
        *gcc) test -f "$("$1" -print-file-name=libc.a)" ;;
    esac
}
missing=
for command; do
    case $command in
        rt) what="the Rattle kit: put its bin folder, which has rt, on the PATH" command=${RT:-rt} ;;
        python3) what="python3: install it, for the kit's rt and the scripts of peers and bench" ;;
        gcc) what="$command: apt install gcc libc6-dev" ;;
        aarch64-linux-gnu-gcc) what="$command: apt install gcc-aarch64-linux-gnu libc6-dev-arm64-cross" ;;
        qemu-aarch64-static) what="$command: apt install qemu-user-static" ;;
        mkimage) what="$command: apt install u-boot-tools" ;;
        qemu-system-i386) what="$command: apt install qemu-system-x86 u-boot-qemu" ;;
        qemu-system-*) what="$command: apt install qemu-system-arm u-boot-qemu" ;;
        dh) what="$command: apt install debhelper" ;;
        dpkg-buildpackage) what="$command: apt install dpkg-dev" ;;
        lintian) what="$command: apt install lintian" ;;
        *) what="$command: install it" ;;
    esac
    has "${command%% *}" || missing="$missing${missing:+; }$what"
done
test -z "$missing" || {
    echo "uimg needs $missing (see CONTRIBUTING.md, \"What you need\")" >&2
    exit 1
}
