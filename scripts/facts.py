"""facts.py: what a release says of itself for other programs: an SBOM for each archive, in the JSON of
SPDX 2.3 (https://spdx.github.io/spdx-spec/v2.3), and PROVED.json.

The packages of an SBOM come from what was linked: the crates that the compiler read, the symbols in
what it compiled (nm), the files that the linker took (its option -t, twice), and the shared libraries
that the result needs (readelf -d)."""
import os
import platform
import re
import shutil
import subprocess
import tempfile
import time
import urllib.parse

import kit

# What SPDX 2.3 requires, by the place in the document.
REQUIRED = {
    "document": ("spdxVersion", "dataLicense", "SPDXID", "name", "documentNamespace", "creationInfo", "packages", "relationships"),
    "creationInfo": ("created", "creators"),
    "packages": ("SPDXID", "name", "downloadLocation"),
    "externalRefs": ("referenceCategory", "referenceType", "referenceLocator"),
    "relationships": ("spdxElementId", "relationshipType", "relatedSpdxElement"),
}
LICENSE = "MIT OR Apache-2.0"
# What the compiler read, and no symbol shows.
UNSEEN = "The compiler read it. The compiled code has no symbol of it: it is inlined, or not used."


def out(*words):
    """Returns the output of a command, or nothing if it failed or is not installed."""
    if not shutil.which(words[0]):
        return ""
    return subprocess.run(words, stdin=subprocess.DEVNULL, stdout=subprocess.PIPE, stderr=subprocess.DEVNULL, text=True).stdout


def libraries(crates, name):
    """Returns the kit's libraries that the compiler reads for a crate of the repository, those below
    them with them."""
    found = ["std"]
    for it in [*crates.below(name), name]:
        found += [use for use in crates.by_name[it].uses if use not in crates.by_name and use not in found]
    for it in found:
        with open(f"{kit.KIT}/rlibs/{it}.rlib/format", encoding="utf-8") as file:
            found += [use for use in re.findall(r"(?m)^dep (\w+)$", file.read()) if use not in found]
    return found


def ported(library):
    """Returns the name and the version of the Rust crate that a library of the kit is a port of, as its
    README names them, or None twice."""
    path = f"{kit.KIT}/rattle/{library}/README.md"
    if not os.path.isfile(path):
        return None, None
    # The crate of the library md5 is md-5.
    name = re.sub(r"_|(?=\d)", "[-_]?", library)
    with open(path, encoding="utf-8") as file:
        found = re.search(rf"Rust crate `({name})` (\d+\.\d+\.\d+)", file.read())
    return found.groups() if found else (None, None)


def crates_in(symbols):
    """Returns the crates that have a symbol, from the output of nm."""
    return set(re.findall(r"(?m) [A-Za-z] (\w+)::", symbols))


def taken(trace, dynamic):
    """Returns the files of the system that the linker took, from its trace, and the dynamic section of
    what it made: objects, archives of which it took a member, and shared libraries that are needed."""
    found = {os.path.normpath(it) for it in re.findall(r"(?m)^\((.*)\)", trace) + re.findall(r"(?m)^[^(].*\.o$", trace)}
    needed = re.findall(r"\(NEEDED\).*\[(.*)\]", dynamic)
    found |= {it for it in trace.split("\n") if os.path.basename(it) in needed}
    return {it for it in found if not it.startswith((f"{os.getcwd()}/", f"{tempfile.gettempdir()}/"))}


def owner(path):
    """Returns the Debian package of a file, its version, and its source package; or the file's name
    alone, if no package has it."""
    for it in (path, path.removeprefix("/usr")):
        name = out("dpkg-query", "-S", it).partition(":")[0]
        if name:
            return name, *out("dpkg-query", "-W", "-f=${Version} ${source:Package}\n", name).split("\n")[0].split()
    return os.path.basename(path), None, None


def package(kind, name, version=None, **more):
    """Returns a package; without a version, if none is known."""
    found = {"SPDXID": f"SPDXRef-{kind}-{name.replace('_', '-').replace('+', '.')}", "name": name, "downloadLocation": "NOASSERTION", "filesAnalyzed": False}
    return found | ({"versionInfo": version} if version else {}) | more


def port(library):
    """Returns the package of one of the kit's libraries: with the version of the Rust crate that it is a
    port of, or else with the kit's name."""
    (crate, version), whole = ported(library), kit.kit_id().split()[0]
    source = f"A port of the Rust crate {crate} {version}, of {whole}." if version else f"A library of {whole}."
    return package("Port", library, version or whole, sourceInfo=source)


def system(name, version, source):
    """Returns the package of what owner() returns."""
    if not version:
        return package("System", name)
    locator = f"pkg:deb/{platform.freedesktop_os_release()['ID']}/{name}@{urllib.parse.quote(version, safe='')}"
    reference = {"referenceCategory": "PACKAGE-MANAGER", "referenceType": "purl", "referenceLocator": locator}
    return package("System", name, version, sourceInfo=f"Of the source package {source}.", externalRefs=[reference])


def sbom(title, crate, version, commit, moment, linked):
    """Returns the SBOM of the archive `title`, whose program or library is compiled from a crate. The
    moment is in seconds since 1970. Linked are the symbols in the compiled code, the trace of the
    linker, and the dynamic section of what it made."""
    symbols, trace, dynamic = linked
    crates, root = kit.Crates(), package("Archive", title, version, licenseDeclared=LICENSE)
    packages, relations = [root], [("SPDXRef-DOCUMENT", "DESCRIBES", root, None)]

    def add(kind, it, comment=None):
        packages.append(it)
        relations.append((root["SPDXID"], kind, it, comment))

    for it in [*crates.below(crate), crate]:
        add("CONTAINS", package("Crate", it, version, licenseDeclared=LICENSE))
    seen = crates_in(symbols)
    for it in libraries(crates, crate):
        add(*(("STATIC_LINK", port(it)) if it in seen else ("DEPENDS_ON", port(it), UNSEEN)))
    owners = {}
    for path in sorted(taken(trace, dynamic)):
        owners.setdefault(owner(path), []).append(path)
    for its, paths in owners.items():
        is_shared = all(".so" in os.path.basename(it) for it in paths)
        add("DYNAMIC_LINK" if is_shared else "STATIC_LINK", system(*its), "Taken: " + ", ".join(paths))
    return {
        "spdxVersion": "SPDX-2.3",
        "dataLicense": "CC0-1.0",
        "SPDXID": "SPDXRef-DOCUMENT",
        "name": title,
        "documentNamespace": f"https://spdx.org/spdxdocs/{title}-{commit}",
        "creationInfo": {"created": time.strftime("%Y-%m-%dT%H:%M:%SZ", time.gmtime(moment)), "creators": [f"Tool: uimg-release-{version}"]},
        "packages": packages,
        "relationships": [relation(*it) for it in relations],
    }


def relation(of, kind, to, comment):
    found = {"spdxElementId": of, "relationshipType": kind, "relatedSpdxElement": to["SPDXID"]}
    return found | ({"comment": comment} if comment else {})


def wrong(document):
    """Yields what an SBOM lacks of what SPDX 2.3 requires."""
    places = [("document", document), ("creationInfo", document.get("creationInfo", {}))]
    places += [(name, it) for name in ("packages", "relationships") for it in document.get(name, [])]
    places += [("externalRefs", it) for one in document.get("packages", []) for it in one.get("externalRefs", [])]
    for name, it in places:
        yield from (f"{name} lacks {field}" for field in REQUIRED[name] if not it.get(field))
    ids = [document.get("SPDXID"), *(it.get("SPDXID") for it in document.get("packages", []))]
    yield from (f"{it} is the id of two elements" for it in set(ids) if ids.count(it) > 1)
    yield from (f"{it} is no id" for it in ids if it and not re.fullmatch(r"SPDXRef-[A-Za-z0-9.-]+", it))
    relations = document.get("relationships", [])
    yield from (f"no element has the id {it}" for one in relations for it in (one.get("spdxElementId"), one.get("relatedSpdxElement")) if it not in ids)
    if not any(it.get("relationshipType") == "DESCRIBES" for it in relations):
        yield "nothing is described"
    if document.get("spdxVersion") != "SPDX-2.3" or document.get("dataLicense") != "CC0-1.0":
        yield "another version or license of the document"
    if not re.fullmatch(r"\d{4}-\d\d-\d\dT\d\d:\d\d:\d\dZ", document.get("creationInfo", {}).get("created", "")):
        yield "the time of creation is not in UTC"
    # Only a package whose files are listed has a sum of them.
    yield from (f"{it.get('name')} lacks filesAnalyzed" for it in document.get("packages", []) if it.get("filesAnalyzed") is not False)


def proved(version, commit, kit_id, statements):
    """Returns what PROVED.txt says, as one object: the fields of the prover's statement on each crate;
    a program and the library have one for each machine."""
    name, _, logic = kit_id.split()
    found = []
    for crate, machine, text in statements:
        fields = dict(word.split("=", 1) for word in text.split())
        found.append({"crate": crate} | ({"machine": machine} if machine else {}) | fields)
    return {"version": version, "commit": commit, "kit": name, "logic": logic, "statements": found}
