"""As much of JSON Schema as the schemas of this folder use."""
from __future__ import annotations

import re
from typing import Dict, Iterator

Schema = Dict[str, object]
TYPES = {'object': dict, 'array': list, 'string': str, 'integer': int}
KNOWN = {'$schema', 'title', 'description', '$defs', '$ref', 'type', 'properties', 'required', 'additionalProperties', 'items', 'prefixItems',
         'minItems', 'minimum', 'maximum', 'pattern', 'const', 'oneOf'}


def faults(value: object, schema: Schema, whole: Schema, at: str = '') -> Iterator[str]:
    """Why a value isn't so; `whole` is the schema in which a `$ref` is looked up."""
    unknown = set(schema) - KNOWN
    if unknown:
        yield f'{at}: the schema has {unknown}, which is not known here'
    if '$ref' in schema:
        found = whole
        for name in str(schema['$ref']).split('/')[1:]:
            found = found[name]         # type: ignore[assignment]
        yield from faults(value, found, whole, at)
    if 'const' in schema and value != schema['const']:
        yield f'{at}: {value!r} is not {schema["const"]!r}'
    if 'type' in schema and (not isinstance(value, TYPES[str(schema['type'])]) or isinstance(value, bool)):
        yield f'{at}: {value!r} is no {schema["type"]}'
        return
    if 'oneOf' in schema:
        fits = sum(not list(faults(value, one, whole, at)) for one in schema['oneOf'])      # type: ignore[attr-defined]
        if fits != 1:
            yield f'{at}: {value!r} fits {fits} of them'
    if isinstance(value, str) and not re.search(str(schema.get('pattern', '')), value):
        yield f'{at}: {value!r} is not {schema["pattern"]}'
    if isinstance(value, int) and not schema.get('minimum', value) <= value <= schema.get('maximum', value):       # type: ignore[operator]
        yield f'{at}: {value} is out of range'
    if isinstance(value, dict):
        yield from faults_of_object(value, schema, whole, at)
    if isinstance(value, list):
        yield from faults_of_array(value, schema, whole, at)


def faults_of_object(value: Dict[str, object], schema: Schema, whole: Schema, at: str) -> Iterator[str]:
    properties: Dict[str, Schema] = schema.get('properties', {})        # type: ignore[assignment]
    for name in schema.get('required', []):                             # type: ignore[attr-defined]
        if name not in value:
            yield f'{at}: there is no {name}'
    for name, part in value.items():
        if name in properties:
            yield from faults(part, properties[name], whole, f'{at}/{name}')
        elif schema.get('additionalProperties') is False:
            yield f'{at}: {name} is too much'


def faults_of_array(value: list, schema: Schema, whole: Schema, at: str) -> Iterator[str]:
    first: list = schema.get('prefixItems', [])     # type: ignore[assignment]
    if len(value) < schema.get('minItems', 0):      # type: ignore[operator]
        yield f'{at}: {len(value)} items are too few'
    for n, item in enumerate(value):
        rest = schema.get('items', {})
        if n < len(first):
            yield from faults(item, first[n], whole, f'{at}/{n}')
        elif rest is False:
            yield f'{at}: item {n} is too much'
        else:
            yield from faults(item, rest, whole, f'{at}/{n}')       # type: ignore[arg-type]
