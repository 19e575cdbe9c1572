"""The OpenAPI document, out of the table of routes and what its reader may see."""
import collections
import json
import re
from typing import Dict

from aiohttp import web

from ..kinds import MOST_TEXT, base, is_nullable
from .catalog import Entry, Scope
from .routes import ROUTES, Route, schema
from .web import JSON, PROBLEM, Hub, Whole

KINDS = {"int": {"type": "integer", "format": "int64"}, "text": {"type": "string", "maxLength": MOST_TEXT}, "bool": {"type": "boolean"}}
STRINGS, VERSION = {"type": "array", "items": {"type": "string"}}, {"type": "integer", "minimum": 0}


def record(required: Dict[str, dict], **optional: dict) -> dict:
    """The schema of an object with these members and no other."""
    return {"type": "object", "additionalProperties": False, "required": list(required), "properties": {**required, **optional}}


DEPENDENCY = record({"left": STRINGS, "right": STRINGS})
VIEW = record(
    {"name": {"type": "string"}, "kind": {"enum": ["table", "view", "window"]},
     "columns": {"type": "array", "items": record({"name": {"type": "string"}, "kind": {"type": "string"}})}, "key": STRINGS,
     "dependencies": {"type": "array", "items": DEPENDENCY}, "predicate": STRINGS,
     "rights": {"type": "array", "items": {"enum": ["read", "preview", "edit"]}}, "version": VERSION},
    through=STRINGS)
SCHEMAS = {
    "Row": {"type": "object", "additionalProperties": {"type": ["integer", "string", "boolean", "null"]}},
    "Rows": {"type": "array", "items": schema("Row")},
    "Change": record({"changed": {"type": "array", "items": record({"table": {"type": "string"}, "remove": schema("Rows"), "add": schema("Rows")})},
                      "ok": {"const": True}, "session": {"type": "string"}, "version": VERSION}),
    "View": VIEW,
    "Views": record({"session": {"type": "string"}, "version": VERSION, "user": {"type": "string"},
                     "may": {"type": "array", "items": {"enum": ["define", "undo", "admin"]}}, "views": {"type": "array", "items": schema("View")}}),
    "Health": record({"ok": {"type": "boolean"}}),
    "Problem": {"type": "object", "required": ["type", "title", "status", "detail"], "properties": {
        "type": {"type": "string"}, "title": {"type": "string"}, "status": {"type": "integer"}, "detail": {"type": "string"},
        "error": {"type": "integer"}, "name": {"type": "string"}}},
}


async def openapi(hub: Hub, request: web.BaseRequest) -> Whole:
    return Whole(json.dumps(document(hub.scope(request)), ensure_ascii=False).encode())


ROUTE = Route("GET", "/openapi.json", openapi, "This document, with the rows of the views that you may see.", reply={"type": "object"})


def document(scope: Scope) -> dict:
    paths = collections.defaultdict(dict)
    for route in (*ROUTES, ROUTE):
        for method in route.methods:
            paths[route.path][method.lower()] = operation(route, method)
    schemas = {**SCHEMAS, **{f"row_of_{name}": row_schema(scope.catalog.entries[name]) for name in scope.rights}}
    return {"openapi": "3.1.0", "info": {"title": "Cigrelk hub", "version": "1"}, "paths": paths, "security": [{"token": []}],
            "components": {"schemas": schemas, "securitySchemes": {"token": {"type": "http", "scheme": "bearer"}}}}


def row_schema(entry: Entry) -> dict:
    """The schema of the rows of a view."""
    def of(kind):
        found = KINDS[base(kind)]
        return {**found, "type": [found["type"], "null"]} if is_nullable(kind) else found

    return record({name: of(kind) for name, kind in entry.columns.items()})


def operation(route: Route, method: str) -> dict:
    path = [{"name": it, "in": "path", "required": True, "schema": {"type": "string"}} for it in re.findall(r"{(\w+)}", route.path)]
    always = (400, 421) if route.is_open else (400, 401, 403, 421, 429, 503)
    statuses = sorted({*route.statuses, *always})
    told = {"summary": route.says, "parameters": [*path, *route.parameters],
            "responses": {str(status): response_of(route, status, method) for status in statuses}}
    if route.takes:
        content = {kind: {"schema": route.body if kind == JSON or len(route.takes) == 1 else {"type": "string"}} for kind in route.takes}
        told["requestBody"] = {"required": route.path != "/undo", "content": content}
    return {**told, "security": []} if route.is_open else told


def response_of(route: Route, status: int, method: str) -> dict:
    if status == 304:
        return {"description": "The client has the rows of now."}
    is_done = status < 300 or route.is_open and status == 503
    description = "It is done." if status < 300 else "It cannot be done now." if is_done else "It is refused."
    if method == "HEAD":
        return {"description": description}
    if not is_done:
        return {"description": description, "content": {PROBLEM: {"schema": schema("Problem")}}}
    return {"description": description, "content": {kind: {"schema": route.reply or {"type": "string"}} if kind == JSON else {} for kind in route.gives}}
