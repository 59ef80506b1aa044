Helps
=====

  $ uimg --help
  Makes, lists, verifies and unpacks U-Boot images
  
  Usage: uimg <COMMAND>
  
  Commands:
    mkimage    Make an image from files, or list one
    dumpimage  List an image, or extract a part of it
    verify     Verify the checksums and hashes of an image, and print a line for each
    check      Check many images, and print a line for each
    unpack     Write the payloads of an image to a folder, if their hashes are right
    info       Print the facts of an image as JSON, for scripts
    map        Show the layout of an image's file, even of a broken one
    diff       Compare two images by what they mean, and print a line for each difference
    help       Print this message or the help of the given subcommand(s)
  
  Options:
        --version  Print the name and the version
    -h, --help     Print help
  
  Examples:
    uimg dumpimage -l kernel.itb
    uimg mkimage --help
  $ uimg --help > help 2> err; echo $? $(wc -c < err)
  0 0
  $ uimg -h | cmp - help
  $ uimg mkimage --help
  Make an image from files, or list one
  
  Usage: uimg mkimage [OPTIONS] <image>
  
  Arguments:
    <image>  The image to make, or with -l the image to list
  
  Options:
    -A <arch>      The architecture [default: ppc]
    -O <os>        The operating system [default: linux]
    -T <type>      The image type [default: kernel]
    -C <comp>      The compression of the data [default: gzip]
    -a <load>      The load address, hexadecimal [default: 0]
    -e <entry>     The entry point, hexadecimal [default: the load address]
    -n <name>      The image's name
    -d <data>      The file with the data; for multi and script, files separated by colons
    -f <source>    The image-tree source of a FIT image
    -E             With -f: place the data after the blob
    -p <position>  With -f and -E: place the data at this offset of the file, hexadecimal
    -l             List the image instead of making one
    -h, --help     Print help
  
  Short names:
    <arch>  arm x86 mips mips64 ppc powerpc sandbox arm64 x86_64 riscv
    <os>    netbsd linux vxworks qnx u-boot rtems plan9 arm-trusted-firmware tee
            opensbi efi
    <type>  standalone kernel ramdisk multi firmware script filesystem
            flat_dt (not for -d) kernel_noload
    <comp>  none gzip bzip2 lzma lzo lz4 zstd
  
  A value that begins with '-' follows its option directly, as in -n-x. -f ignores
  the options from -A to -n, and -d ignores -E and -p. -p 0 is the same as no -p.
  Relative file names in the image source start from its folder.
  
  Examples:
    uimg mkimage -A arm64 -C none -a 80000 -n 'kernel 6.1' -d Image uImage
    uimg mkimage -A arm -T multi -d zImage:initrd.gz multi.img
    uimg mkimage -f kernel.its -E -p 1000 kernel.itb
  
  Exit status:
    0  The image was made or listed
    1  The image, a part or the image source is refused
    2  The command line is wrong, or the image would replace a file that it is made of
    3  A file cannot be opened, a read or write failed, or memory ran out
  $ uimg mkimage -h > short && uimg mkimage --help | cmp - short
  $ uimg dumpimage --help
  List an image, or extract a part of it
  
  Usage: uimg dumpimage [OPTIONS] <image>
  
  Arguments:
    <image>  The image
  
  Options:
    -l             List the image on standard output
    -T <type>      Read the image as a FIT or legacy image, by a short name below
    -p <position>  Extract the part or payload at this position, counted from 0
    -o <outfile>   Write the part or payload to this file
    -h, --help     Print help
  
  Short names:
    <type>  standalone kernel ramdisk multi firmware script filesystem
            flat_dt kernel_noload
  
  flat_dt reads the image as a FIT image, every other name as a legacy image,
  whatever type its header has. Without -T the first four bytes decide.
  
  Examples:
    uimg dumpimage -l uImage
    uimg dumpimage -p 1 -o initrd.gz multi.img
    uimg dumpimage -T flat_dt -p 0 -o Image kernel.itb
  
  Exit status:
    0  The image was listed, or the part extracted
    1  The image or the part is refused
    2  The command line is wrong, or the outfile would replace the image
    3  A file cannot be opened, a read or write failed, or memory ran out
  $ uimg dumpimage -h > short && uimg dumpimage --help | cmp - short
  $ uimg verify -h
  Verify the checksums and hashes of an image, and print a line for each
  
  Usage: uimg verify <image>
  
  Arguments:
    <image>  The image
  
  Options:
    -h, --help  Print help
  
  Prints a line for each checksum. A legacy image has one of the header and, if that
  is right, one of the data; a FIT image has one for each hash node of each image.
  A line ends with ok, bad, malformed or unsupported, or with unhashed for an image
  without hash nodes.
  The table of sizes of the types multi and script is not checked (dumpimage -l
  reads it), and neither are signatures and the hashes of configurations.
  
  Examples:
    uimg verify uImage
    uimg verify kernel.itb && cp kernel.itb /boot
  
  Exit status:
    0  Each line ends with ok or unhashed, or there is no line
    1  A line ends with another word, or the image is refused
    2  The command line is wrong
    3  A file cannot be opened, a read or write failed, or memory ran out
  $ uimg verify --help > short && uimg verify -h | cmp - short
  $ uimg check -h
  Check many images, and print a line for each
  
  Usage: uimg check [OPTIONS] [image]...
  
  Arguments:
    [image]...  The images, - for standard input
  
  Options:
        --need <algo>         Require a hash by this algorithm or a stronger one
        --strict              Require hashes, images for all names, and a tree that U-Boot reads alike
        --key <[name=]file>   Require each configuration to be signed by the key in this file
        --config <name>       With --key: require only this configuration to be signed
        --allow-sha1          With --key: accept signatures over SHA-1
        --recursive           Check the images below each folder that is given
        --files-from <file>   Also check the images whose paths are in this file, one a line
    -0                        Paths in that file end with NUL, not with a newline
        --json                Print a JSON object for each image
        --junit <file>        Also write a JUnit report to this file, which is replaced
        --quiet               Print no line for images that are ok
        --allow-empty         Accept a file of paths that has none
        --max-input <number>  Read at most this many bytes of standard input (4 GiB)
    -h, --help                Print help
  
  Algorithms, from the weakest to the strongest:
    <algo>  crc32 md5 sha1 sha256 sha384 sha512
  
  A line has the path of the image and the first finding:
    ok           All hashes are right, or both checksums of a legacy image. With
                 --strict the line of a FIT also counts the nodes of its
                 configurations, if any: 2 nodes of configurations unchecked; with
                 --key it ends with: all configurations signed by dev, or with
                 --config: configuration conf-1 signed by dev
    unhashed     The same, but this image of the FIT has no hash
    bad          This hash of this image, or the data's checksum of a legacy image,
                 is wrong
    malformed    This hash has no algorithm, no value, or one of the wrong length
    unsupported  This hash has an unknown algorithm
    weak         This image has no hash as strong as --need, or with --strict none;
                 a legacy image has crc32
    empty        The FIT has no images (with --need or --strict)
    missing      With --strict: no image has this name, which this configuration
                 gives by kernel, ramdisk, fdt, loadables, firmware, fpga, setup,
                 standalone or script; or the default configuration does not
                 exist
    no-description no-timestamp unit-address doubled-node doubled-property
    ignored-hash odd-cell half-place two-payloads misplaced unsound-blob
                 With --strict: U-Boot refuses the FIT, or reads this node in
                 another way
    empty-data unknown-type unknown-architecture unknown-system
    unknown-compression
                 With --strict: the legacy image has no data, or image.h has no
                 name for this code of its header
    unsigned unknown-signature weak-signature signed-strings signed-nodes
    signature-length signature-range bad-signature
                 With --key: this configuration is not signed by the key; or the
                 FIT has none (or not this one), or U-Boot verifies no signature
                 of it, or the image is a legacy image
    overlapping  With this image, the payloads to hash are longer than the file
    refused      The image is refused, with this fault
    failed       The file cannot be opened, a read failed, or memory ran out
  In paths and names, control characters and \ are printed as \xNN, in names also
  spaces, colons and commas. --recursive takes the files below a folder that begin
  as an image does, by the order of their names, follows no symbolic link, and ends
  with a line that counts the others. --files-from - reads standard input; a file
  without a path, or a folder without an image, is refused (--allow-empty). The image
  - is read from standard input to a file without a name in TMPDIR or /tmp. --json
  prints path, status and verdict (the word), and depending on it format, images,
  hashes, unchecked, configurations, signed, signatures, checksums, algo, image,
  hash, configuration, property, name, node, fault, message and offset.
  
  --junit writes a report for CI as well: a test case an image, also with --quiet.
  It is a failure with the word and the line, or an error if the word is failed.
  FILE gets the report when all images are checked, and only if it does not exist,
  is empty, or begins as a report does (<?xml).
  
  --key implies --strict. Its file has an RSA key in PEM (openssl pkey -pubout), or
  is U-Boot's control devicetree with the keys that it requires for configurations.
  Each configuration must be signed by the key, or with --config this one only. The
  line has the name before the =, or those of the keys in the devicetree; a path
  with a = before its first / begins with ./, as ./a=b. Without --key no signature
  is checked; hashes of configurations never are.
  
  Examples:
    uimg check --strict --need sha256 kernel.itb rescue.itb
    uimg check --key dev=dev.pem kernel.itb
    uimg check --key dev=dev.pem --config conf-1 kernel.itb
    ssh board cat /boot/kernel.itb | uimg check --strict -
    find /srv/images -name '*.itb' -print0 | uimg check -0 --files-from -
    uimg check --junit report.xml kernel.itb rescue.itb
  
  Exit status, the greatest of all lines:
    0  ok or unhashed
    1  Any other word except failed
    2  The command line is wrong
    3  failed, or a line cannot be written
  $ uimg check --help > short && uimg check -h | cmp - short
  $ uimg --version
  uimg 0.1.0

Without words the command line is wrong: the help goes to standard error.

  $ uimg > out
  Makes, lists, verifies and unpacks U-Boot images
  
  Usage: uimg <COMMAND>
  
  Commands:
    mkimage    Make an image from files, or list one
    dumpimage  List an image, or extract a part of it
    verify     Verify the checksums and hashes of an image, and print a line for each
    check      Check many images, and print a line for each
    unpack     Write the payloads of an image to a folder, if their hashes are right
    info       Print the facts of an image as JSON, for scripts
    map        Show the layout of an image's file, even of a broken one
    diff       Compare two images by what they mean, and print a line for each difference
    help       Print this message or the help of the given subcommand(s)
  
  Options:
        --version  Print the name and the version
    -h, --help     Print help
  
  Examples:
    uimg dumpimage -l kernel.itb
    uimg mkimage --help
  [2]
  $ wc -c < out
  0

The help of a command, by another form:

  $ for command in mkimage dumpimage verify check unpack info map; do uimg $command --help > one; uimg help $command | cmp - one; done
