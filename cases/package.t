What is installed with the program
==================================

  $ top="$TESTDIR/.."

The completions have the commands, options and short names of the helps:

  $ "$top/scripts/completions.py" "$(command -v uimg)" --check
  $ complete_at() {
  >     bash -c 'compopt() { echo "$*"; }; . "$0"; COMP_WORDS=("$@"); COMP_CWORD=$(($# - 1)); _${1//-/_}; echo "${COMPREPLY[@]}"' \
  >         "$top/completions/$1.bash" "$@"
  > }
  $ complete_at uimg ''
  mkimage dumpimage verify check unpack info map diff help -h --help --version
  $ complete_at uimg help m
  mkimage map
  $ complete_at uimg check --n
  --need
  $ complete_at uimg check --need-hash ''
  -o default
  
  $ complete_at uimg unpack --directory ''
  -o default
  
  $ complete_at uimg mkimage -A arm
  arm arm64
  $ complete_at uimg dumpimage -T f
  firmware filesystem flat_dt
  $ complete_at uimg verify -
  -h --help

They complete a folder after -C, and files after what takes one:

  $ complete_at uimg unpack -C ''
  -o dirnames
  
  $ complete_at uimg mkimage -d ''
  -o default
  
  $ complete_at uimg unpack --only ''
  

The names of mkimage and dumpimage have completions of their own:

  $ complete_at uimg-mkimage --os open
  openbsd openrtos opensbi
  $ complete_at uimg-mkimage -C l
  lz4 lzma lzo
  $ complete_at uimg-mkimage --a
  --architecture --alignment
  $ complete_at uimg-dumpimage -T f
  firmware filesystem flat_dt
  $ complete_at uimg-dumpimage -
  -l -o -p -T -h -V
  $ make -s -C "$top" install-completions PREFIX="$PWD" NAMES="uimg-mkimage uimg-dumpimage mkimage" && find share -type f | sort
  share/bash-completion/completions/mkimage
  share/bash-completion/completions/uimg
  share/bash-completion/completions/uimg-dumpimage
  share/bash-completion/completions/uimg-mkimage
  share/fish/vendor_completions.d/mkimage.fish
  share/fish/vendor_completions.d/uimg-dumpimage.fish
  share/fish/vendor_completions.d/uimg-mkimage.fish
  share/fish/vendor_completions.d/uimg.fish
  share/zsh/site-functions/_mkimage
  share/zsh/site-functions/_uimg
  share/zsh/site-functions/_uimg-dumpimage
  share/zsh/site-functions/_uimg-mkimage
  $ diff "$top/completions/_uimg-mkimage" share/zsh/site-functions/_mkimage
  1c1
  < #compdef uimg-mkimage
  ---
  > #compdef mkimage
  [1]
  $ tail -n 1 share/bash-completion/completions/mkimage
  complete -F _uimg_mkimage mkimage
  $ grep -c '^complete -c mkimage ' share/fish/vendor_completions.d/mkimage.fish
  23

The wrappers find the program that is installed with them:

  $ mkdir -p root/bin && ln -s "$(command -v uimg)" root/bin/uimg-mkimage && ln -s "$(command -v uimg)" root/bin/uimg-dumpimage
  $ make -s -C "$top" install-wrappers PREFIX="$PWD/root" && find root/lib -type f | sort
  root/lib/uimg/wrappers/common.sh
  root/lib/uimg/wrappers/dumpimage
  root/lib/uimg/wrappers/mkimage
  $ root/lib/uimg/wrappers/dumpimage -V 2> own && PATH=$PWD/root/lib/uimg/wrappers:$PATH mkimage -V 2>> own && uniq own
  dumpimage version 2023.01
  mkimage version 2023.01
  uimg 0.1.0

The manual pages and the package have the program's version:

  $ version=$(uimg --version)
  $ head -q -n 1 "$top"/docs/*.[1-8] | cut -d '"' -f 2 | sed "s/^$version$/the same/" | uniq -c | sed 's/^ *//'
  5 the same
  $ head -n 1 "$top/debian/changelog" | sed "s/^uimg (${version#uimg }) .*/the same/"
  the same
