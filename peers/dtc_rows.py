"""Command lines of mkimage with words for dtc, with sources from elsewhere, and with options of keys
but no key. Both tools make the same image of them, or none."""

# The checks of dtc 1.6.1, but for always_fail.
CHECKS = """
addr_size_cells address_cells_is_cell alias_paths avoid_default_addr_size avoid_unnecessary_addr_size
chosen_node_bootargs chosen_node_is_root chosen_node_stdout_path clocks_is_cell clocks_property
compatible_is_string_list cooling_device_is_cell cooling_device_property deprecated_gpio_property
device_type_is_string dma_ranges_format dmas_is_cell dmas_property duplicate_label
duplicate_node_names duplicate_property_names explicit_phandles gpios_property graph_child_address
graph_endpoint graph_nodes graph_port hwlocks_is_cell hwlocks_property i2c_bus_bridge i2c_bus_reg
interrupt_provider interrupts_extended_is_cell interrupts_extended_property interrupts_property
io_channels_is_cell io_channels_property iommus_is_cell iommus_property label_is_string
mboxes_is_cell mboxes_property model_is_string msi_parent_is_cell msi_parent_property
mux_controls_is_cell mux_controls_property name_is_string name_properties names_is_string_list
node_name_chars node_name_chars_strict node_name_format node_name_vs_property_name
obsolete_chosen_interrupt_controller omit_unused_nodes path_references pci_bridge pci_device_bus_num
pci_device_reg phandle_references phys_is_cell phys_property power_domains_is_cell
power_domains_property property_name_chars property_name_chars_strict pwms_is_cell pwms_property
ranges_format reg_format resets_is_cell resets_property simple_bus_bridge simple_bus_reg
size_cells_is_cell sound_dai_is_cell sound_dai_property spi_bus_bridge spi_bus_reg status_is_string
thermal_sensors_is_cell thermal_sensors_property unique_unit_address unique_unit_address_if_enabled
unit_address_format unit_address_vs_reg
""".split()
# In these words, `_` is a blank.
PADS = """-p_0 -p_1 -p_7 -p_500 -p_2000 -p_0x1000 -p_65536 -p500 -p0x40 --pad_3 --pad=3000 -S_1 -S_3000
-S_0x4000 -S700 --space_5000 --space=6 -a_1 -a_2 -a_8 -a_64 -a_4096 -a0x10 --align_8 --align=16 -R_0
-R_1 -R_16 -R4 --reserve_2 --reserve=3 -b_0 -b0 --boot-cpu_0 --boot-cpu=0 -@ --symbols -q -qq -qqq
-q_-q --quiet -q@ -I_dts -Idts --in-format_dts --in-format=dts -O_dtb -Odtb --out-format_dtb
--out-format=dtb -I_dts_-O_dtb -I_dts_-O_dtb_-p_500_-q -qIdts_-@p_4 -p_4_-p_8 -p_8_-S_0 -S_9_-p_0
-a_8_-p_100_-R_2 __-q__-p__4_""".split()
REFUSED = """-a_3 -a_0 -a_zz --align=6 -S_3_-p_4 -p_4_-S_3 -W_nosuch -Wnosuch -E_no-nosuch
--warning=nosuch -Z --nosuch -qZ -O_dts -I_dtb -I_fs -Ofs --quiet=1 nofile -q_nofile -i -p -W
-p_4_-S --include -h -v --version --help -T""".split()
# What follows -D: sources, placements and images that need no dtc.
USES = ["-f fit.its out", "-E -f fit.its out", "-E -p 1000 -f fit.its out", "-f - out < fit.its"]
FOLDERS = """
mkimage -D '-i inc' -f inc.its out
mkimage -D -iinc -f inc.its out
mkimage -D '--include inc' -f inc.its out
mkimage -D --include=inc -f inc.its out
mkimage -D '-i more -i inc' -f inc.its out
mkimage -D '-i inc -i more' -f inc.its out
mkimage -D '-i none -i inc' -f inc.its out
mkimage -D '-qi inc' -f inc.its out
mkimage -D '-qiinc' -f inc.its out
mkimage -D '-i inc/' -f inc.its out
mkimage -D '-i ./inc' -f inc.its out
mkimage -D '-i folder/../inc' -f inc.its out
mkimage -D '-i none' -f inc.its out
mkimage -D '-i d' -f inc.its out
mkimage -D '-i more' -f inc.its out
mkimage -D '-i folder' -f fit.its out
mkimage -D '-i inc' -f only.its out
mkimage -D '-i more -i inc' -f only.its out
mkimage -D '-i inc' -f ./only.its out
mkimage -D '-i inc' -f more/../only.its out
mkimage -D '-i inc' -f none/only.its out
mkimage -D '-i more' -f only.its out
mkimage -D '-i inc' -f inc/only.its out
mkimage -D '-i more' -f inc/only.its out
mkimage -D '-i more -i .' -f inc/only.its out
mkimage -f inc/only.its out
mkimage -f inc.its out
mkimage -D '-i inc' -E -f inc.its out
mkimage -D '-i inc' -E -p 2000 -B 40 -f inc.its out
mkimage -D '-i inc' -f - out < inc.its
cat inc.its | mkimage -D '-i inc' -f - out
mkimage -D '-i inc' -f - out < inc/only.its
mkimage -f - out < inc.its
mkimage -f - out < /dev/null
mkimage -f - out < d
mkimage -f - out < fit.its
cat fit.its | mkimage -f - out
mkimage --fit - out < fit.its
mkimage --fit=- out < fit.its
mkimage -f- out < fit.its
mkimage -E -f - out < fit.its
mkimage -f - folder/none/out < fit.its
mkimage -D nosuch -A arm -d d out
mkimage -D '-Z -i' -A arm -d d out
mkimage -D nosuch -f auto -A arm -d d out
mkimage -D '-Z -i' -f auto -A arm -d d out
mkimage -D -Z -D -q -f fit.its out
mkimage -D -q -D -Z -f fit.its out
mkimage -D -Z -l uimage
"""
KEYS = """
mkimage -r -f fit.its out
mkimage --key-required -f fit.its out
mkimage -r -E -f fit.its out
mkimage -o sha256,rsa2048 -f fit.its out
mkimage -o nosuch -f fit.its out
mkimage --algo sha256,rsa2048 -f fit.its out
mkimage -g none -f fit.its out
mkimage -gnone -f fit.its out
mkimage --key-name-hint none -f fit.its out
mkimage --key-name-hint=none -f fit.its out
mkimage -g none -o sha256,rsa2048 -r -c text -f fit.its out
mkimage -r -f sig.its out > /dev/null
mkimage -g none -f sig.its out > /dev/null
mkimage -o sha1,rsa2048 -f sig.its out > /dev/null
mkimage -g none -o sha1,rsa2048 -r -f sig.its out > /dev/null
mkimage -E -g none -r -f sig.its out > /dev/null
mkimage -f sig.its out > /dev/null
mkimage -E -f sig.its out > /dev/null
mkimage -f auto -r -A arm -d d out
mkimage -f auto -o sha256,rsa2048 -A arm -d d out
mkimage -f auto -g none -A arm -d d out
mkimage -f auto -g none -o sha256,rsa2048 -A arm -d d out
mkimage -f auto -g none -o sha256,rsa2048 -A arm -d d -b abc -i d out
mkimage -f auto -E -g none -o sha256,rsa2048 -A arm -d d out
mkimage -r -A arm -d d out
mkimage -g abc -A arm -d d out
mkimage -o sha256 -A arm -d d out
mkimage -k keys -A arm -d d out
mkimage -K abc -A arm -d d out
mkimage -G abc -A arm -d d out
mkimage -N pkcs11 -A arm -d d out
mkimage --key-dir keys --key-dest abc --key-file abc --engine e -A arm -d d out
mkimage -k keys -l uimage
mkimage -r -g abc -o x -l uimage
mkimage -V
mkimage --version
mkimage -V -Z
mkimage -q -V
dumpimage -V
dumpimage -V uimage
"""


def rows():
    """The command lines."""
    for line in (FOLDERS + KEYS).strip().split("\n"):
        if line.strip():
            yield line
    for words in spaced(PADS):
        for use in USES:
            yield f"mkimage -D '{words}' {use}"
    for words in spaced(REFUSED):
        yield f"mkimage -D '{words}' -f fit.its out"
    for check in CHECKS:
        for words in (f"-W {check}", f"-Wno-{check}", f"--error=no-{check}"):
            yield f"mkimage -D '{words}' -f fit.its out"


def spaced(rows):
    """The rows with blanks."""
    return [it.replace("_", " ") for it in rows]


def files(source):
    """The further files that the rows name, by the source of the others."""
    signature = 'signature { algo = "sha256,rsa2048"; key-name-hint = "none"; };'
    elsewhere = source.replace('"d"', '"inner"').replace('"abc"', '"inner2"')
    return {
        "inc.its": elsewhere,
        "inc/only.its": source.replace('"d"', '"inner"'),
        "inc/inner": "inner",
        "inc/inner2": "second",
        "more/inner": "another",
        "sig.its": source.replace('hash { algo = "sha1"; };', signature),
    }
