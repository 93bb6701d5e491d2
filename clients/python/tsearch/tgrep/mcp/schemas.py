"""Reads values by a JSON Schema, of which the tools use a part."""

from __future__ import annotations

from typing import Any

_KINDS: dict[str, tuple[type, ...]] = {
    "string": (str,), "integer": (int,), "boolean": (bool,), "array": (list,), "object": (dict,),
}  # fmt: skip


class Unfit(Exception):
    """A value is not one of its schema. The text says where, and what it has to be."""


def check(value: Any, schema: dict[str, Any], where: str) -> Any:
    """The value, with whole numbers as such. `Unfit` if it does not meet the schema."""
    if "anyOf" in schema:
        return _any(value, schema["anyOf"], where)
    kind = schema["type"]
    if kind == "integer" and isinstance(value, float) and value.is_integer():
        value = int(value)
    if not isinstance(value, _KINDS[kind]) or (isinstance(value, bool) and kind != "boolean"):
        raise Unfit(f"{where} has to be of type {kind}")
    if "enum" in schema and value not in schema["enum"]:
        raise Unfit(f"{where} has to be one of {', '.join(map(repr, schema['enum']))}")
    if kind == "string":
        _text(value, schema, where)
    elif kind == "integer" and not schema["minimum"] <= value <= schema["maximum"]:
        raise Unfit(f"{where} has to be from {schema['minimum']} to {schema['maximum']}")
    elif kind == "array":
        if len(value) > schema["maxItems"]:
            raise Unfit(f"{where} has at most {schema['maxItems']} entries")
        return [check(one, schema["items"], f"{where}[{at}]") for at, one in enumerate(value)]
    elif kind == "object":
        return _object(value, schema, where)
    return value


def _any(value: Any, schemas: list[dict[str, Any]], where: str) -> Any:
    faults = []
    for schema in schemas:
        try:
            return check(value, schema, where)
        except Unfit as unfit:
            faults.append(str(unfit))
    raise Unfit("; or ".join(faults))


def _text(value: str, schema: dict[str, Any], where: str) -> None:
    if not schema.get("minLength", 0) <= len(value) <= schema["maxLength"]:
        raise Unfit(f"{where} has {schema.get('minLength', 0)} to {schema['maxLength']} characters")
    try:
        value.encode()
    except UnicodeEncodeError:
        raise Unfit(f"{where} has half a pair of UTF-16, which is no character") from None


def _object(value: dict[str, Any], schema: dict[str, Any], where: str) -> dict[str, Any]:
    known = schema["properties"]
    for key in value:
        if key not in known:
            raise Unfit(f"{where} has no {ascii(key)[:80]}: there are {', '.join(known)}")
    for key in schema.get("required", ()):
        if key not in value:
            raise Unfit(f"{where} needs {key}")
    return {key: check(one, known[key], f"{where}.{key}") for key, one in value.items()}
