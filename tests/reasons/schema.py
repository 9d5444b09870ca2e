"""Says whether a value is what a JSON schema asks for. It knows the words of draft 2020-12 that docs/configuration.schema.json uses.

A whole number is an int and any other number a float, so that 64.0 isn't taken for 64.
"""

import re

TELL = {"$schema", "$defs", "title", "description", "default", "examples"}
TYPES = {
    "object": lambda value: isinstance(value, dict),
    "array": lambda value: isinstance(value, list),
    "string": lambda value: isinstance(value, str),
    "integer": lambda value: isinstance(value, int) and not isinstance(value, bool),
    "null": lambda value: value is None,
}


def equal(one, other):
    return isinstance(one, bool) == isinstance(other, bool) and not isinstance(one, float) and one == other


class Schema:
    def __init__(self, whole):
        self.whole = whole

    def named(self, reference):
        """The schema that a reference names."""
        found = self.whole
        for part in reference.removeprefix("#/").split("/"):
            found = found[part]
        return found

    def takes(self, value, schema=None):
        schema = self.whole if schema is None else schema
        return all(getattr(self, "of_" + word.lstrip("$"))(asked, value, schema) for word, asked in schema.items() if word not in TELL)

    def of_ref(self, asked, value, _):
        return self.takes(value, self.named(asked))

    def of_type(self, asked, value, _):
        return any(TYPES[each](value) for each in ([asked] if isinstance(asked, str) else asked))

    def of_required(self, asked, value, _):
        return not isinstance(value, dict) or all(key in value for key in asked)

    def of_properties(self, asked, value, _):
        return not isinstance(value, dict) or all(self.takes(value[key], each) for key, each in asked.items() if key in value)

    def of_items(self, asked, value, _):
        return not isinstance(value, list) or all(self.takes(each, asked) for each in value)

    def of_enum(self, asked, value, _):
        return any(equal(value, each) for each in asked)

    def of_const(self, asked, value, _):
        return equal(value, asked)

    def of_pattern(self, asked, value, _):
        return not isinstance(value, str) or re.search(re.sub(r"\$$", r"\\Z", asked), value) is not None

    def of_minimum(self, asked, value, _):
        return isinstance(value, bool) or not isinstance(value, (int, float)) or value >= asked

    def of_maximum(self, asked, value, _):
        return isinstance(value, bool) or not isinstance(value, (int, float)) or value <= asked

    def of_minLength(self, asked, value, _):
        return not isinstance(value, str) or len(value) >= asked

    def of_maxLength(self, asked, value, _):
        return not isinstance(value, str) or len(value) <= asked

    def of_anyOf(self, asked, value, _):
        return any(self.takes(value, each) for each in asked)

    def of_allOf(self, asked, value, _):
        return all(self.takes(value, each) for each in asked)

    def of_not(self, asked, value, _):
        return not self.takes(value, asked)

    def of_if(self, asked, value, schema):
        return not self.takes(value, asked) or self.takes(value, schema.get("then", {}))

    def of_then(self, asked, value, schema):
        return True
