#!/usr/bin/env python3
"""facts_test.py: tests what a release says of itself (facts.py): its SBOM over the crates that are
here, a symbol of some of them, and, with a C compiler, the trace of a linker; and PROVED.json. The last
line is 'N passed, M failed'."""
import os
import shutil
import sys
import tempfile

import facts
import kit

SYMBOLS = """0000000000000000 t sha2::block256::compress
0000000000000010 T uimg_list
                 U memcpy
0000000000000000 t core::fmt::utf8::encode
0000000000000000 t uimg_base::output::Out::put_all::<#5539a5dbb70f83a3>
"""
TRACE = """/usr/lib/no-such-folder/../crt1.o
/tmp/made.o
/usr/lib/no-such-folder/libunused.a
(/usr/lib/no-such-folder/libnone.a)malloc.o
/usr/lib/no-such-folder/libunneeded.so.1
"""
STATEMENT = "logic=proved functions=105 sum=dac8208d650f15bf native=nat,char,string logic-built=trusted"
passed, failed = 0, 0


def case(name, is_right):
    global passed, failed
    passed, failed = passed + bool(is_right), failed + (not is_right)
    if not is_right:
        print(f"{name}: not as it should be")


def made(crate, trace, dynamic=""):
    return facts.sbom("uimg-0.1.0-x86_64", crate, "0.1.0", "17f7e0a0", 1_700_000_000, (SYMBOLS, trace, dynamic))


def kinds(document):
    """Returns the type of each relationship by the name of its package."""
    names = {it["SPDXID"]: it["name"] for it in document["packages"]}
    return {names[it["relatedSpdxElement"]]: it["relationshipType"] for it in document["relationships"]}


def check_packages(crate):
    """Each crate, and each library that the compiler read, is a package with a version."""
    document, crates = made(crate, TRACE), kit.Crates()
    found, versions = kinds(document), {it["name"]: it.get("versionInfo") for it in document["packages"]}
    case(f"fields of {crate}", list(facts.wrong(document)) == [])
    case(f"the time of {crate}", document["creationInfo"]["created"] == "2023-11-14T22:13:20Z")
    case(f"crates of {crate}", {it for it in found if found[it] == "CONTAINS"} == {crate, *crates.below(crate)})
    linked = {it for it in found if found[it] in ("STATIC_LINK", "DEPENDS_ON")}
    case(f"libraries of {crate}", linked == {"crt1.o", "libnone.a", *facts.libraries(crates, crate)})
    case(f"what has a symbol in {crate}", {it for it in found if found[it] == "STATIC_LINK"} == {"sha2", "core", "crt1.o", "libnone.a"})
    case(f"versions of {crate}", all(versions[it] for it in set(found) - {"crt1.o", "libnone.a"}))
    case(f"a port of {crate}", versions["md5"] == facts.ported("md5")[1] != kit.kit_id().split()[0] == versions["std"])


def check_wrong():
    """Each field that is required is missed."""
    for place, fields in facts.REQUIRED.items():
        for field in fields:
            document = made("uimg", "")
            last = document["packages"][-1]
            last["externalRefs"] = [dict.fromkeys(facts.REQUIRED["externalRefs"], "a")]
            parts = {"document": [document], "creationInfo": [document["creationInfo"]], "externalRefs": last["externalRefs"]}
            case(f"{place} with {field}", not list(facts.wrong(document)))
            del (document | parts)[place][-1][field]
            case(f"{place} without {field}", f"{place} lacks {field}" in facts.wrong(document))


def check_linker(compiler):
    """What a linker took of the C library, statically and shared."""
    for options, library, kind in (("-static", "libc.a", "STATIC_LINK"), ("-shared", "libc.so.6", "DYNAMIC_LINK")):
        with tempfile.TemporaryDirectory() as room:
            with open(f"{room}/a.c", "w", encoding="ascii") as file:
                file.write("#include <stdlib.h>\nint main(void) { return malloc(1) == 0; }\n")
            words = [compiler, options, "-fPIC", "-Wl,-t,-t", "-o", f"{room}/a", f"{room}/a.c"]
            trace = facts.out(*words)
            dynamic = facts.out("readelf", "-d", f"{room}/a")
        names = [os.path.basename(it) for it in facts.taken(trace, dynamic)]
        case(f"the C library, {options}", [it for it in names if it.startswith("libc.")] == [library])
        document = made("uimg_c", trace, dynamic)
        case(f"a package of it, {options}", any(library in it.get("comment", "") and it["relationshipType"] == kind for it in document["relationships"]))


def check_proved():
    statements = [("uimg_base", None, STATEMENT), ("uimg", "aarch64", STATEMENT + " target=aarch64")]
    found = facts.proved("0.1.0", "17f7e0a0", "rattle-kit-13f logic dac8208d650f15bf\n", statements)
    case("the kit", (found["kit"], found["logic"]) == ("rattle-kit-13f", "dac8208d650f15bf"))
    case("a crate", found["statements"][0]["crate"] == "uimg_base" and "machine" not in found["statements"][0])
    case("a statement", found["statements"][0]["functions"] == "105" and found["statements"][0]["native"] == "nat,char,string")
    case("a machine", found["statements"][1]["machine"] == "aarch64" and found["statements"][1]["target"] == "aarch64")


for name in ("uimg", "uimg_c"):
    check_packages(name)
check_wrong()
if shutil.which("cc"):
    check_linker("cc")
check_proved()
print(f"{passed} passed, {failed} failed")
sys.exit(1 if failed else 0)
