"""Results as SARIF 2.1.0, for editors and continuous integration."""

import json

from .diagnostics import RULES, Diagnostic

SCHEMA = "https://json.schemastore.org/sarif-2.1.0.json"


def region(place):
    return {
        "physicalLocation": {
            "artifactLocation": {"uri": place.file},
            "region": {"startLine": place.line, "startColumn": place.column},
        }
    }


def entry(diagnostic):
    made = {
        "ruleId": diagnostic.rule,
        "level": diagnostic.level,
        "message": {"text": diagnostic.message + "".join(f"\n{it}" for it in diagnostic.notes)},
        "locations": [region(diagnostic.place)],
    }
    if diagnostic.script:
        made["properties"] = {"script": diagnostic.script}
    return made


def refusal_entry(refusal):
    message = f"{refusal.construct}: {refusal.reason}; {refusal.instead}"
    return entry(Diagnostic(refusal.place, "not-translated", message))


def sarif(results):
    """The text of a SARIF file."""
    found = []
    for result in results:
        found += [refusal_entry(it) for it in sorted(result.translation.log.refusals)]
        found += [entry(it) for it in result.diagnostics]
    unique = list({json.dumps(it, sort_keys=True): it for it in found}.values())
    rules = [{"id": name, "shortDescription": {"text": text}} for name, text in RULES.items()]
    log = {
        "$schema": SCHEMA,
        "version": "2.1.0",
        "runs": [{"tool": {"driver": {"name": "memcad-c", "rules": rules}}, "results": unique}],
    }
    return json.dumps(log, indent=2) + "\n"
