"""The list of what the packages are made of, in SPDX 2.3 (JSON): the program, the library, every crate that they stand on, and the packages that have them."""
from __future__ import annotations

import csv
import json
from pathlib import Path
from typing import Any

import evidence
import sources
from sources import TOP, Unfit

#: The crates whose code stands in the program, and in the library.
PROGRAM, LIBRARY = "ee_cli", "ee_value_c"
NO_LICENCE = "NOASSERTION"
OWN_LICENCE = "No licence has been chosen. Only the owner can choose one."


class Crates:
    """The crates of the repository that program and library stand on, and those of the toolchain, with what each was ported from."""

    def __init__(self) -> None:
        self.uses = sources.crates_file()
        with open(TOP / "packaging" / "ported_crates.csv", newline="") as file:
            self.ported = {row["name"]: row for row in csv.DictReader(file)}
        reached = sources.closure([PROGRAM, LIBRARY], self.uses)
        self.own = sorted(name for name in reached if name in self.uses)
        lacking = sorted(
            name for name in reached if name not in self.uses and name not in self.ported
        )
        if lacking:
            raise Unfit(f"packaging/ported_crates.csv lacks {', '.join(lacking)}")

    def edges(self) -> list[tuple[str, str]]:
        """Every crate of the repository with what crates.txt says that it uses."""
        return [(name, used) for name in self.own for used in sorted(self.uses[name])]


def spdx_id(kind: str, name: str) -> str:
    return f"SPDXRef-{kind}-{name.replace('_', '-')}"


def package(identity: str, name: str, version: str, **more: Any) -> dict[str, Any]:
    return {
        "SPDXID": identity,
        "name": name,
        "versionInfo": version,
        "downloadLocation": "NOASSERTION",
        "filesAnalyzed": False,
        "licenseConcluded": NO_LICENCE,
        "licenseDeclared": NO_LICENCE,
        "copyrightText": "NOASSERTION",
        **more,
    }


def sha256(path: Path) -> list[dict[str, str]]:
    return [{"algorithm": "SHA256", "checksumValue": sources.sum_of(path)}]


def own_crate(name: str, version: str) -> dict[str, Any]:
    return package(
        spdx_id("crate", name),
        name,
        version,
        primaryPackagePurpose="LIBRARY",
        licenseComments=OWN_LICENCE,
    )


def ported_crate(row: dict[str, str], kit: str) -> dict[str, Any]:
    """A crate of the toolchain. Its version is the toolchain's; what it was ported from is named beside it, for whoever looks for known weaknesses."""
    more: dict[str, Any] = {"primaryPackagePurpose": "LIBRARY"}
    if row["ported_from"]:
        more["licenseDeclared"] = row["licence"]
        more[
            "comment"
        ] = f"After the Rust crate {row['ported_from']} {row['version']}, ported to Rattle. The toolchain's pages say what was taken over."
        more["externalRefs"] = [
            {
                "referenceCategory": "PACKAGE-MANAGER",
                "referenceType": "purl",
                "referenceLocator": f"pkg:cargo/{row['ported_from']}@{row['version']}",
                "comment": "what it was ported from, not what it is",
            }
        ]
    else:
        more[
            "comment"
        ] = "A crate of the toolchain, which names no Rust crate of one version that it was ported from."
    if row["holder"]:
        more["copyrightText"] = "; ".join(
            f"Copyright (c) {holder}" for holder in row["holder"].split("; ")
        )
    return package(spdx_id("crate", row["name"]), row["name"], kit, **more)


def debian_package(path: Path) -> dict[str, Any]:
    name, version, architecture = path.stem.split("_")
    reference = {
        "referenceCategory": "PACKAGE-MANAGER",
        "referenceType": "purl",
        "referenceLocator": f"pkg:deb/{name}@{version}?arch={architecture}",
    }
    return package(
        spdx_id("deb", name),
        name,
        version,
        packageFileName=path.name,
        checksums=sha256(path),
        externalRefs=[reference],
        licenseComments=OWN_LICENCE,
        primaryPackagePurpose="INSTALL",
    )


def relation(one: str, kind: str, other: str) -> dict[str, str]:
    return {"spdxElementId": one, "relationshipType": kind, "relatedSpdxElement": other}


def document(facts: evidence.Facts, crates: Crates) -> dict[str, Any]:
    kit, release = evidence.kit(), facts.version.rsplit("-", 1)[0]
    program = package(
        spdx_id("program", PROGRAM),
        PROGRAM,
        release,
        checksums=sha256(facts.program),
        licenseComments=OWN_LICENCE,
        primaryPackagePurpose="APPLICATION",
    )
    shared = Path(facts.library) / "libee_value.so.1"
    library = package(
        spdx_id("library", "ee_value"),
        "libee_value",
        release,
        checksums=sha256(shared),
        licenseComments=OWN_LICENCE,
        primaryPackagePurpose="LIBRARY",
    )
    toolchain = package("SPDXRef-toolchain", "rattle-kit", kit, primaryPackagePurpose="APPLICATION")
    debs = [debian_package(path) for path in facts.packages]
    made = [program, library, toolchain, *debs]
    made += [own_crate(name, release) for name in crates.own]
    made += [ported_crate(row, kit) for _, row in sorted(crates.ported.items())]
    return {
        "spdxVersion": "SPDX-2.3",
        "dataLicense": "CC0-1.0",
        "SPDXID": "SPDXRef-DOCUMENT",
        "name": f"ladwenpik-{facts.version}",
        "documentNamespace": f"https://ladwenpik.example/spdx/{facts.version}/{sources.sum_of(facts.program)}",
        "creationInfo": {
            "created": evidence.time_text(facts.epoch),
            "creators": ["Tool: packaging/build", "Organization: Ladwenpik maintainers"],
        },
        "packages": made,
        "relationships": relations(crates, [deb["SPDXID"] for deb in debs]),
    }


def relations(crates: Crates, debs: list[str]) -> list[dict[str, str]]:
    program, library = spdx_id("program", PROGRAM), spdx_id("library", "ee_value")
    contained = {"ladwenpik": program, "libee-value1": library, "libee-value-dev": library}
    yielded = [relation("SPDXRef-DOCUMENT", "DESCRIBES", deb) for deb in debs]
    yielded += [
        relation(spdx_id("deb", name), "CONTAINS", inner) for name, inner in contained.items()
    ]
    yielded += [relation("SPDXRef-toolchain", "BUILD_TOOL_OF", made) for made in (program, library)]
    yielded += [
        relation(program, "CONTAINS", spdx_id("crate", PROGRAM)),
        relation(library, "CONTAINS", spdx_id("crate", LIBRARY)),
    ]
    yielded += [
        relation(spdx_id("crate", name), "DEPENDS_ON", spdx_id("crate", used))
        for name, used in crates.edges()
    ]
    direct = {used for _, used in crates.edges()}
    below = [name for name in sorted(crates.ported) if name not in direct]
    return yielded + [relation(program, "DEPENDS_ON", spdx_id("crate", name)) for name in below]


def text(listed: dict[str, Any]) -> str:
    return json.dumps(listed, indent=1, ensure_ascii=False) + "\n"
