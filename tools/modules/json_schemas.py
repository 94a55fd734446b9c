"""Whether something of JSON is as a schema says: of JSON Schema what the schemas of this repository use, and nothing else."""

KINDS = {"object": dict, "array": list, "string": str, "boolean": bool, "null": type(None)}
KNOWN = {"$schema", "$defs", "$ref", "title", "type", "required", "properties", "additionalProperties", "items", "const", "enum", "minimum", "oneOf"}


def is_of_kind(value, kind):
    if kind in ("integer", "number"):
        return not isinstance(value, bool) and isinstance(value, int if kind == "integer" else (int, float))
    return isinstance(value, KINDS[kind])


def faults_of(value, schema, top=None, where=""):
    """What isn't as the schema says, each with where it stands; none where all is."""
    top = schema if top is None else top
    for word in schema.keys() - KNOWN:
        raise ValueError("the schema has %s, which isn't known here" % word)
    if "$ref" in schema:
        return faults_of(value, top["$defs"][schema["$ref"].rsplit("/", 1)[1]], top, where)
    if "oneOf" in schema:
        found = [faults_of(value, it, top, where) for it in schema["oneOf"]]
        fitting = found.count([])
        return [] if fitting == 1 else ["%s: %d of %d fit: %s" % (where or "/", fitting, len(found), found)]
    kinds = schema.get("type", [])
    kinds = [kinds] if isinstance(kinds, str) else kinds
    if kinds and not any(is_of_kind(value, it) for it in kinds):
        return ["%s: no %s" % (where or "/", " or ".join(kinds))]
    faults = []
    if "const" in schema and value != schema["const"]:
        faults.append("%s: not %s" % (where, schema["const"]))
    if "enum" in schema and value not in schema["enum"]:
        faults.append("%s: %s is none of these" % (where, value))
    if "minimum" in schema and is_of_kind(value, "number") and value < schema["minimum"]:
        faults.append("%s: below %s" % (where, schema["minimum"]))
    return faults + faults_within(value, schema, top, where)


def faults_within(value, schema, top, where):
    """The same of what stands in an object or a list."""
    faults = []
    if isinstance(value, dict):
        known = schema.get("properties", {})
        faults += ["%s/%s lacks" % (where, it) for it in schema.get("required", []) if it not in value]
        if schema.get("additionalProperties", True) is False:
            faults += ["%s/%s isn't known" % (where, it) for it in value if it not in known]
        for name, own in known.items():
            if name in value:
                faults += faults_of(value[name], own, top, "%s/%s" % (where, name))
    if isinstance(value, list) and "items" in schema:
        for place, it in enumerate(value):
            faults += faults_of(it, schema["items"], top, "%s/%d" % (where, place))
    return faults
