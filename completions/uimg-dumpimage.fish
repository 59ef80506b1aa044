# Made by scripts/completions.py from the helps of uimg.
complete -c uimg-dumpimage -s l -d 'list the image'
complete -c uimg-dumpimage -s o -r -d 'write the part or payload to this file'
complete -c uimg-dumpimage -s p -x -d 'extract the part or payload at this position, counted from 0'
complete -c uimg-dumpimage -s T -x -a 'standalone kernel ramdisk multi firmware script filesystem flat_dt kernel_noload' -d 'read the image as a FIT image (flat_dt) or as a legacy image (its types)'
complete -c uimg-dumpimage -s h -d 'print this help'
complete -c uimg-dumpimage -s V -d 'print the version'
