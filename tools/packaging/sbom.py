"""The list of what a package is made of, as SPDX 2.3 in JSON."""

from __future__ import annotations

import datetime
import hashlib
import json
from typing import Any, Dict, List

from .linked import UNKNOWN, Linked

_NAMESPACE = "https://spdx.org/spdxdocs"
#: What the schema of SPDX 2.3 requires, of a document, of a package and of a relationship; and the standard's
#: namespace.
REQUIRED = {
    "document": ("SPDXID", "creationInfo", "dataLicense", "name", "spdxVersion", "documentNamespace"),
    "creationInfo": ("created", "creators"),
    "package": ("SPDXID", "downloadLocation", "name"),
    "relationship": ("spdxElementId", "relatedSpdxElement", "relationshipType"),
}


def _package(name: str, version: str, licence: str) -> Dict[str, Any]:
    it = {
        "SPDXID": f"SPDXRef-Package-{name.replace('_', '-')}",
        "name": name,
        "versionInfo": version,
        "downloadLocation": UNKNOWN,
        "filesAnalyzed": False,
        "licenseConcluded": licence,
        "licenseDeclared": licence,
        "copyrightText": UNKNOWN,
    }
    return it if version != UNKNOWN else {key: value for key, value in it.items() if key != "versionInfo"}


def document(name: str, version: str, moment: int, linked: List[Linked], more: List[Dict[str, str]]) -> str:
    """The document of a package of that name: Knifesilver, the crates, and `more` that is linked."""
    own = _package("knifesilver", version, "Apache-2.0")
    parts = [_package(it.name, it.version, it.licence) for it in linked] + [_package(**it) for it in more]
    created = datetime.datetime.fromtimestamp(moment, datetime.timezone.utc).strftime("%Y-%m-%dT%H:%M:%SZ")
    relationships = [
        {"spdxElementId": "SPDXRef-DOCUMENT", "relationshipType": "DESCRIBES", "relatedSpdxElement": own["SPDXID"]},
        *(
            {"spdxElementId": own["SPDXID"], "relationshipType": "STATIC_LINK", "relatedSpdxElement": it["SPDXID"]}
            for it in parts
        ),
    ]
    it = {
        "spdxVersion": "SPDX-2.3",
        "dataLicense": "CC0-1.0",
        "SPDXID": "SPDXRef-DOCUMENT",
        "name": name,
        "creationInfo": {"created": created, "creators": ["Tool: knifesilver-tools-package"]},
        "packages": [own, *parts],
        "relationships": relationships,
    }
    digest = hashlib.sha256(json.dumps(it, sort_keys=True).encode()).hexdigest()
    it["documentNamespace"] = f"{_NAMESPACE}/{name}-{digest[:32]}"
    return json.dumps(it, indent=2) + "\n"


def missing(text: str) -> List[str]:
    """What the schema requires and that document lacks."""
    it = json.loads(text)
    places = [("document", it), ("creationInfo", it.get("creationInfo", {}))]
    places += [("package", each) for each in it.get("packages", [])]
    places += [("relationship", each) for each in it.get("relationships", [])]
    lacks = [f"{kind}: {field}" for kind, place in places for field in REQUIRED[kind] if not place.get(field)]
    known = {each.get("SPDXID") for each in it.get("packages", [])} | {it.get("SPDXID")}
    ends = {each.get(end) for each in it.get("relationships", []) for end in ("spdxElementId", "relatedSpdxElement")}
    return lacks + [f"relationship: unknown {each}" for each in sorted(ends - known)]
