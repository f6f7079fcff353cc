"""The list of what a release is made of, in SPDX 2.3: https://spdx.github.io/spdx-spec/v2.3/."""
import hashlib
import json
import re
from datetime import datetime, timezone

OWN = "SPDXRef-fillaqut"
KIT = "SPDXRef-kit"
HOLDER = "The Fillaqut maintainers"
LICENCE = "MIT"
# What no release is made of: texts there have licences of their own.
LEFT_OUT = ("tests/", "bench/")
IDENTIFIER = re.compile(r"SPDXRef-[A-Za-z0-9.-]+")


def checksums(content):
    """The checksums of a file, of which SPDX asks for SHA1."""
    return [{"algorithm": name.upper(), "checksumValue": hashlib.new(name, content).hexdigest()} for name in ("sha1", "sha256")]


def identifier(kind, name):
    return f"SPDXRef-{kind}-{re.sub(r'[^A-Za-z0-9.]', '-', name)}-{hashlib.sha256(name.encode()).hexdigest()[:8]}"


def file_of(kind, name, content):
    said = {"licenseConcluded": LICENCE, "licenseInfoInFiles": [LICENCE], "copyrightText": f"Copyright (c) 2026 {HOLDER}"}
    return {"SPDXID": identifier(kind, name), "fileName": f"./{name}", "checksums": checksums(content), **said}


def verification_code(files):
    """The checksum of the sorted checksums of a package's files."""
    sums = sorted(one["checksumValue"] for it in files for one in it["checksums"] if one["algorithm"] == "SHA1")
    return hashlib.sha1("".join(sums).encode()).hexdigest()


def own_package(version, sources):
    """The package whose files the sources are."""
    about = {"supplier": f"Organization: {HOLDER}", "downloadLocation": "NOASSERTION", "primaryPackagePurpose": "LIBRARY"}
    licence = {"licenseConcluded": LICENCE, "licenseDeclared": LICENCE, "licenseInfoFromFiles": [LICENCE]}
    code = {"packageVerificationCodeValue": verification_code(sources)}
    held = {"filesAnalyzed": True, "packageVerificationCode": code, "hasFiles": [it["SPDXID"] for it in sources]}
    return {"SPDXID": OWN, "name": "fillaqut", "versionInfo": version, **about, **licence, **held, "copyrightText": f"Copyright (c) 2026 {HOLDER}"}


def foreign_package(identity, name, version, licence, source, comment):
    """A package of which no files are listed."""
    said = {"licenseConcluded": licence, "licenseDeclared": licence, "copyrightText": "NOASSERTION", "filesAnalyzed": False}
    return {"SPDXID": identity, "name": name, "versionInfo": version, "downloadLocation": source, "comment": comment, **said}


def document(version, time, given, sources, components, kit):
    """The list, of the files that are given out and of the sources, by their names; the components; and the kit's version."""
    made = [file_of("given", name, content) for name, content in sorted(given.items())]
    read = [file_of("source", name, content) for name, content in sorted(sources.items())]
    packages = [own_package(version, read)]
    packages += [
        foreign_package(identifier("crate", it.crate), it.name, it.version, it.licence, it.source, f"crate `{it.crate}` of the kit") for it in components
    ]
    words = "the toolchain that proves and compiles, and whose standard library is compiled into libraries and programs"
    packages += [foreign_package(KIT, "rattle-kit", kit, "NOASSERTION", "NOASSERTION", words)]
    links = [("SPDXRef-DOCUMENT", "DESCRIBES", OWN), (OWN, "STATIC_LINK", KIT), (KIT, "BUILD_TOOL_OF", OWN)]
    links += [(OWN, "STATIC_LINK", identifier("crate", it.crate)) for it in components]
    links += [(it["SPDXID"], "GENERATED_FROM", OWN) for it in made]
    created = datetime.fromtimestamp(time, timezone.utc).strftime("%Y-%m-%dT%H:%M:%SZ")
    return {
        "spdxVersion": "SPDX-2.3",
        "dataLicense": "CC0-1.0",
        "SPDXID": "SPDXRef-DOCUMENT",
        "name": f"fillaqut-{version}",
        "documentNamespace": f"https://spdx.org/spdxdocs/fillaqut-{version}-{verification_code(made)}",
        "creationInfo": {"created": created, "creators": [f"Organization: {HOLDER}", f"Tool: fillaqut-release-{version}"]},
        "packages": packages,
        "files": [*made, *read],
        "relationships": [{"spdxElementId": one, "relationshipType": kind, "relatedSpdxElement": other} for one, kind, other in links],
    }


def written(found):
    return json.dumps(found, indent=1, ensure_ascii=False) + "\n"


def faults_of_head(found):
    expected = {"spdxVersion": "SPDX-2.3", "dataLicense": "CC0-1.0", "SPDXID": "SPDXRef-DOCUMENT"}
    yield from (f"{name} is not {value}" for name, value in expected.items() if found.get(name) != value)
    if not re.fullmatch(r"https://\S+", found.get("documentNamespace", "")) or not found.get("name"):
        yield "the document has no name or no namespace"
    about = found.get("creationInfo", {})
    if not re.fullmatch(r"\d{4}-\d\d-\d\dT\d\d:\d\d:\d\dZ", about.get("created", "")) or not about.get("creators"):
        yield "it is not said who made the document, and when"


def faults_of_elements(found):
    """What SPDX asks for and an element has not, and ends of relationships that are not elements."""
    packages, files = found.get("packages", []), found.get("files", [])
    if len(packages) < 2 or not files:
        yield "it lists no packages, or no files"
    for it in packages:
        missing = [name for name in ("name", "versionInfo", "downloadLocation", "licenseConcluded", "licenseDeclared", "copyrightText") if not it.get(name)]
        yield from (f"{it.get('name')} has no {name}" for name in missing)
    for it in files:
        kinds = {one["algorithm"] for one in it.get("checksums", [])}
        if not it.get("fileName", "").startswith("./") or not {"SHA1", "SHA256"} <= kinds or not it.get("licenseConcluded"):
            yield f"{it.get('fileName')} has no name, licence or checksum"
        if it.get("fileName", "")[2:].startswith(LEFT_OUT):
            yield f"{it['fileName']} is no part of a release"
    known = [it.get("SPDXID", "") for it in [*packages, *files]]
    yield from (f"{name} is no identifier, or one of several" for name in known if not IDENTIFIER.fullmatch(name) or known.count(name) > 1)
    ends = {end for it in found.get("relationships", []) for end in (it["spdxElementId"], it["relatedSpdxElement"])}
    yield from (f"{end} is not in the document" for end in sorted(ends - {*known, "SPDXRef-DOCUMENT"}))


def faults_of_package(found):
    """Whether its own package has the files that it says, by their checksums."""
    own = [it for it in found.get("packages", []) if it.get("SPDXID") == OWN]
    by_name = {it["SPDXID"]: it for it in found.get("files", [])}
    held = [by_name[name] for name in own[0].get("hasFiles", []) if name in by_name] if own else []
    if not held or verification_code(held) != own[0].get("packageVerificationCode", {}).get("packageVerificationCodeValue"):
        yield "the package has no files, or others than it says"


def faults(found, given):
    """What is wrong in a list, whose release has these files by their names."""
    yield from faults_of_head(found)
    yield from faults_of_elements(found)
    yield from faults_of_package(found)
    listed = {it.get("fileName", "")[2:]: it for it in found.get("files", []) if it.get("SPDXID", "").startswith("SPDXRef-given-")}
    yield from (f"{name} is not listed" for name in sorted(set(given) - set(listed)))
    yield from (f"{name} is listed, and not given out" for name in sorted(set(listed) - set(given)))
    yield from (f"{name} has other checksums" for name in sorted(set(given) & set(listed)) if listed[name].get("checksums") != checksums(given[name]))
