"""schema: says where a JSON value isn't what a JSON schema asks, for the words of it that docs/report.schema.json uses.

A word that it doesn't know is an error, so that no rule of the schema is left out unseen.
"""

import re

TYPES = {"object": dict, "array": list, "string": str, "boolean": bool}
NOTES = {"$schema", "$id", "$defs", "title", "description", "then", "else"}


def is_of(kind, value):
    if kind == "integer":
        return isinstance(value, int) and not isinstance(value, bool)
    return isinstance(value, TYPES[kind])


def faults(schema, value, whole, where="$"):
    """The places at which the value breaks a rule."""
    if isinstance(schema, bool):
        return [] if schema else [f"{where}: not allowed"]
    found = []
    for word, rule in schema.items():
        if word in NOTES:
            continue
        if word == "$ref":
            name = re.fullmatch(r"#/\$defs/(\w+)", rule)[1]
            found += faults(whole["$defs"][name], value, whole, where)
        elif word == "type":
            found += [f"{where}: no {rule}"] * (not is_of(rule, value))
        elif word == "const":
            found += [f"{where}: not {rule!r}"] * (value != rule or isinstance(value, bool) != isinstance(rule, bool))
        elif word == "enum":
            found += [f"{where}: not one of {rule}"] * (value not in rule)
        elif word == "pattern":
            found += [f"{where}: not as {rule}"] * (isinstance(value, str) and not re.search(rule, value))
        elif word == "minimum":
            found += [f"{where}: below {rule}"] * (is_of("integer", value) and value < rule)
        elif word == "maximum":
            found += [f"{where}: above {rule}"] * (is_of("integer", value) and value > rule)
        elif word == "items":
            for at, it in enumerate(value if isinstance(value, list) else ()):
                found += faults(rule, it, whole, f"{where}[{at}]")
        elif word == "required":
            found += [f"{where}: {it} is missing" for it in rule if isinstance(value, dict) and it not in value]
        elif word == "properties":
            for it, inner in rule.items():
                if isinstance(value, dict) and it in value:
                    found += faults(inner, value[it], whole, f"{where}.{it}")
        elif word == "additionalProperties":
            names = schema.get("properties", {})
            found += [f"{where}: {it} is not allowed" for it in value if isinstance(value, dict) and not rule and it not in names]
        elif word == "dependentRequired":
            for it, others in rule.items():
                found += [f"{where}: {it} without {other}" for other in others if it in value and other not in value]
        elif word == "if":
            branch = "else" if faults(rule, value, whole, where) else "then"
            found += faults(schema.get(branch, True), value, whole, where)
        else:
            raise ValueError(f"a rule {word} is not known here")
    return found
