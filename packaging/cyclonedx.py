"""The list of materials in CycloneDX 1.6 (JSON), made from the one in SPDX: the same parts, sums and dependencies."""
from __future__ import annotations

import json
import uuid
from typing import Any

from sbom import NO_LICENCE

#: A part's type in CycloneDX, by its purpose in SPDX.
TYPES = {"APPLICATION": "application", "LIBRARY": "library", "INSTALL": "application"}
#: The relations of SPDX that say what a part needs. The toolchain is named as a tool.
NEEDS = ("DESCRIBES", "CONTAINS", "DEPENDS_ON")
TOOLCHAIN, WHOLE = "toolchain", "DOCUMENT"


def short(identity: str) -> str:
    return identity.removeprefix("SPDXRef-")


def component(part: dict[str, Any]) -> dict[str, Any]:
    """A part. A Debian package is named by its purl; of a crate the purl names what it was ported from, its ancestor."""
    found = {
        "type": TYPES[part["primaryPackagePurpose"]],
        "bom-ref": short(part["SPDXID"]),
        "name": part["name"],
        "version": part["versionInfo"],
    }
    if "comment" in part:
        found["description"] = part["comment"]
    if "checksums" in part:
        found["hashes"] = [
            {"alg": "SHA-256", "content": item["checksumValue"]} for item in part["checksums"]
        ]
    if part["licenseDeclared"] != NO_LICENCE:
        found["licenses"] = [{"expression": part["licenseDeclared"]}]
    if part["copyrightText"] != NO_LICENCE:
        found["copyright"] = part["copyrightText"]
    for reference in part.get("externalRefs", []):
        purl = reference["referenceLocator"]
        if "packageFileName" in part:
            found["purl"] = purl
        else:
            name, version = purl.rsplit("/", 1)[1].split("@")
            found["pedigree"] = {
                "ancestors": [{"type": "library", "name": name, "version": version, "purl": purl}]
            }
    return found


def dependencies(listed: dict[str, Any], names: list[str]) -> list[dict[str, Any]]:
    """Every part with those that it needs."""
    needed: dict[str, set[str]] = {name: set() for name in names}
    for relation in listed["relationships"]:
        if relation["relationshipType"] in NEEDS:
            needed[short(relation["spdxElementId"])].add(short(relation["relatedSpdxElement"]))
    return [{"ref": name, "dependsOn": sorted(needed[name])} for name in names]


def document(listed: dict[str, Any]) -> dict[str, Any]:
    """The document, from that of SPDX. Its serial number follows from the name of that one, so the same sources give the same bytes."""
    parts = [component(part) for part in listed["packages"]]
    tools = [
        {"type": "application", "name": "packaging/build"},
        *(part for part in parts if part["bom-ref"] == TOOLCHAIN),
    ]
    parts = [part for part in parts if part["bom-ref"] != TOOLCHAIN]
    name, version = listed["name"].split("-", 1)
    return {
        "bomFormat": "CycloneDX",
        "specVersion": "1.6",
        "serialNumber": f"urn:uuid:{uuid.uuid5(uuid.NAMESPACE_URL, listed['documentNamespace'])}",
        "version": 1,
        "metadata": {
            "timestamp": listed["creationInfo"]["created"],
            "tools": {"components": tools},
            "authors": [{"name": "Ladwenpik maintainers"}],
            "component": {
                "type": "application",
                "bom-ref": WHOLE,
                "name": name,
                "version": version,
            },
        },
        "components": parts,
        "dependencies": dependencies(listed, [WHOLE, *(part["bom-ref"] for part in parts)]),
    }


def text(listed: dict[str, Any]) -> str:
    return json.dumps(document(listed), indent=1, ensure_ascii=False) + "\n"
