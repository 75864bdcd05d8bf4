#!/usr/bin/env python3
"""docs/openapi.json: it has the calls of docs/API.md and no others, its examples fit its schemas, and a new desk answers each of them
as it stands, in the order of `x-exchanges`. Each call is also refused in each way that the document names, and in no other.
"""
import copy
import json
import os
import re
import subprocess
import unittest
import urllib.parse

from service import PROGRAM, TOP, Desk, check, folder, main, same, write


def read(name):
    with open(os.path.join(TOP, "docs", name), encoding="utf-8") as file:
        return file.read()


PAGE, TEXT = read("API.md"), read("openapi.json")
DOCUMENT = json.loads(TEXT)
METHODS = ("get", "put", "post", "delete")
TYPES = {"string": str, "integer": int, "boolean": bool, "object": dict, "array": list, "null": type(None)}
# what the document says of a value; `format` and `discriminator` say it once more for other programs
KEYWORDS = {
    "$ref", "additionalProperties", "description", "discriminator", "enum", "format", "items", "minimum", "oneOf", "pattern", "properties",
    "required", "type",
}


def operations(document):
    """Each operation by its name: its method, its path and what is said of it."""
    return {
        operation["operationId"]: (method.upper(), path, operation)
        for path, methods in document["paths"].items()
        for method, operation in methods.items()
    }


def at(document, reference):
    """What a reference names, or None."""
    found = document
    for part in reference.removeprefix("#/").split("/"):
        found = found.get(part) if isinstance(found, dict) else None
    return found


def meant(document, said):
    """What is said here, or what the reference in its place names."""
    return at(document, said["$ref"]) if "$ref" in said else said


def references(said):
    """All references in a part of the document."""
    if isinstance(said, list):
        return [found for each in said for found in references(each)]
    if not isinstance(said, dict):
        return []
    own = [said["$ref"]] if "$ref" in said else list(said.get("mapping", {}).values())
    return own + [found for key, each in said.items() if key != "value" for found in references(each)]


def faulty_references(document):
    """References that name nothing, and parts that nothing names."""
    named = set(references(document))
    there = {"#/components/%s/%s" % (kind, name) for kind, parts in document["components"].items() for name in parts}
    return sorted(named ^ there)


def calls_of_page():
    """The table of requests on the page: each method and path, with who may ask, and whether it has a number and a body."""
    rows = re.findall(r"^\| `([A-Z]+) (/\S+)` \| [^|]* \| (\w+) \| (\w+) \| *(.*?) *\|$", PAGE, re.M)
    return {
        (method, path.replace("ZONE", "{zone}").replace("SYSMOD", "{sysmod}")): (who, number == "yes", body != "")
        for method, path, who, number, body in rows
    }


def calls_of(document):
    found = {}
    for method, path, operation in operations(document).values():
        parameters = [at(document, each["$ref"])["name"] for each in operation["parameters"]]
        who = "all" if "403" not in operation["responses"] else "publisher" if operation["operationId"] == "publish" else "client"
        found[method, path] = who, "bureau-number" in parameters, "requestBody" in operation
        same("the parameters of the path %s" % path, re.findall(r"{(\w+)}", path), [each for each in parameters if each in ("zone", "sysmod")])
    return found


def refusals_of_page():
    """The texts of refusals in the table of statuses, each with its status, but for 405, which no call here gets."""
    section = PAGE.split("\n## Statuses\n")[1].split("\n## ")[0]
    rows = re.findall(r"^\| (\d{3}) [^|]* \| ([^|]*) \|", section, re.M)
    sample = {"L": "7", "number": "34", "place": "2"}
    texts = [(status, re.sub(r"\b(L|number|place)\b", lambda word: sample[word[1]], text)) for status, cell in rows for text in re.findall("`([^`]*)`", cell)]
    return {(status, text + "\n") for status, text in texts if status not in ("200", "405")}


def misfits(document, schema, value, place=""):
    """Where a value is none that its schema describes."""
    unknown = set(schema) - KEYWORDS
    if unknown:
        yield "%s: the checker knows no %s" % (place, ", ".join(sorted(unknown)))
    if "$ref" in schema:
        yield from misfits(document, at(document, schema["$ref"]), value, place)
    if "type" in schema and not is_of(schema["type"], value):
        yield "%s: %r is not of %s" % (place, value, schema["type"])
    if "enum" in schema and value not in schema["enum"]:
        yield "%s: %r is none of %s" % (place, value, schema["enum"])
    if "pattern" in schema and isinstance(value, str) and not re.search(re.sub(r"\$$", r"\\Z", schema["pattern"]), value):
        yield "%s: %r is not as %s" % (place, value, schema["pattern"])
    if "minimum" in schema and isinstance(value, int) and value < schema["minimum"]:
        yield "%s: %r is below %d" % (place, value, schema["minimum"])
    if "oneOf" in schema:
        count = sum(not list(misfits(document, each, value)) for each in schema["oneOf"])
        if count != 1:
            yield "%s: %r fits %d of what it may be" % (place, value, count)
    if isinstance(value, list) and "items" in schema:
        for index, each in enumerate(value):
            yield from misfits(document, schema["items"], each, "%s/%d" % (place, index))
    if isinstance(value, dict):
        yield from misfits_of_object(document, schema, value, place)


def misfits_of_object(document, schema, value, place):
    known = schema.get("properties", {})
    for name in schema.get("required", ()):
        if name not in value:
            yield "%s: %s is missing" % (place, name)
    for name, each in value.items():
        if name in known:
            yield from misfits(document, known[name], each, "%s/%s" % (place, name))
        elif schema.get("additionalProperties") is False:
            yield "%s: nothing is said of %s" % (place, name)


def is_of(kinds, value):
    kinds = kinds if isinstance(kinds, list) else [kinds]
    return any(isinstance(value, TYPES[kind]) and (kind == "boolean" or not isinstance(value, bool)) for kind in kinds)


def media_of(document, operation):
    """Each media type of an operation with its schema and its examples: of what is sent, and of what comes back."""
    yield from operation.get("requestBody", {}).get("content", {}).items()
    for response in operation["responses"].values():
        yield from meant(document, response)["content"].items()


def example_faults(document):
    """Examples that do not fit, and parameters of exchanges that are none."""
    for name, (_, _, operation) in operations(document).items():
        for kind, media in media_of(document, operation):
            for example, said in media.get("examples", {}).items():
                yield from misfits(document, media["schema"], said["value"], "%s, %s, %s" % (name, kind, example))
    for exchange in document["x-exchanges"]:
        operation = operations(document)[exchange["operation"]][2]
        parameters = {each["name"]: each for each in (at(document, each["$ref"]) for each in operation["parameters"])}
        if set(parameters) != set(exchange["parameters"]):
            yield "%s has other parameters than its operation" % exchange["example"]
            continue
        for name, value in exchange["parameters"].items():
            yield from misfits(document, parameters[name]["schema"], value, "%s, %s" % (exchange["example"], name))


def faults_of_order(document):
    """Examples that no exchange sends, exchanges that have none, and operations that none shows."""
    sent = [each["example"] for each in document["x-exchanges"]]
    all_media = (media for _, _, operation in operations(document).values() for _, media in media_of(document, operation))
    there = {example for media in all_media for example in media.get("examples", {})}
    shown = {each["operation"] for each in document["x-exchanges"] if each["status"] == 200}
    again = {example for example in sent if sent.count(example) > 1}
    return sorted((set(sent) ^ there) | again | (set(operations(document)) ^ shown))


def request_of(document, exchange):
    """What an exchange sends: the method, the path, the headers and the body."""
    method, path, operation = operations(document)[exchange["operation"]]
    given, headers = exchange["parameters"], []
    for parameter in (at(document, each["$ref"]) for each in operation["parameters"]):
        value = given[parameter["name"]]
        if parameter["in"] == "path":
            path = path.replace("{%s}" % parameter["name"], urllib.parse.quote(value, safe="@$"))
        else:
            headers.append((parameter["name"], value))
    body = None
    for media in operation.get("requestBody", {}).get("content", {}).values():
        body = media["examples"][exchange["example"]]["value"].encode()
        headers.append(("content-length", len(body)))
    return method, path, headers, body


def reply_of(document, exchange):
    """What an exchange says of the reply: the status, the media type and the bytes."""
    response = meant(document, operations(document)[exchange["operation"]][2]["responses"][str(exchange["status"])])
    for kind, media in response["content"].items():
        value = media["examples"][exchange["example"]]["value"]
        text = json.dumps(value, separators=(",", ":"), ensure_ascii=False) if kind == "application/json" else value
        return exchange["status"], kind, text.encode()


def desk_of(document):
    rows = "".join("%s,%s\n" % row for row in document["x-callers"].items())
    return Desk(write(folder() + "/callers.csv", "NAME,TOKEN\n" + rows))


def told_otherwise(document, desk):
    """The exchanges that a desk answers in another way than the document says."""
    for exchange in document["x-exchanges"]:
        status, headers, body = desk.reply(*request_of(document, exchange))
        got, wanted = (status, headers["content-type"], body), reply_of(document, exchange)
        if got != wanted:
            yield exchange["example"], got, wanted


def refused_ways(document, name):
    """Requests of an operation that are refused, each by what is wrong with it, after all exchanges."""
    method, path, operation = operations(document)[name]
    path = path.replace("{zone}", "TGT1").replace("{sysmod}", "UJ90101")
    publisher, alpha = (document["x-callers"][caller] for caller in ("PUBLISH", "ALPHA"))
    own, other = (publisher, alpha) if name == "publish" else (alpha, publisher)
    is_change = any(each["$ref"].endswith("/Number") for each in operation["parameters"])
    due = 2 if name == "publish" else 4  # the number of the next change

    def request(token=own, number=due, path=path, length=0, more=(), body=b""):
        headers = [("bureau-token", token)] if token else []
        headers += [("bureau-number", number)] if is_change else []
        headers += [("content-length", length or len(body))] if method in ("PUT", "POST") or length else []
        return method, path, headers + list(more), body

    yield "no token", request(token=None)
    yield "nobody's token", request(token="nobody-token")
    if calls_of_page()[operations(document)[name][:2]][0] != "all":
        yield "another caller", request(token=other)
    yield "chunks", request(more=[("transfer-encoding", "chunked")])
    yield "two lengths", request(length=1, more=[("content-length", 1)])
    yield "a body that is too large", request(length=67108865)
    yield "too many lines", request(more=[("x", "y")] * 65)
    if "{zone}" in operations(document)[name][1]:
        yield "no id", request(path=path.replace("TGT1", "tgt1"))
        yield "no zone", request(path=path.replace("TGT1", "NONE"))
    if "{sysmod}" in operations(document)[name][1]:
        yield "no id of a SYSMOD", request(path=path.replace("UJ90101", "uj90101"))
    if is_change:
        yield "no number", request(number=0)
        yield "a gap", request(number=due + 1)
        yield "a number of before", request(number=due - 2)
    if "requestBody" in operation:
        yield "no length", (method, path, [("bureau-token", own), ("bureau-number", due)], None)
        yield "a fault", request(body=b"++HOLD(UA1) ERROR.\n")


def refusal_faults(document, desk):
    """Refusals that the document has not, or has with other headers or texts, and those that it has and that never come."""
    for name, (_, _, operation) in operations(document).items():
        seen = {"200", "503"}  # the exchanges show the one; the other comes where memory or the disk is at its end
        for way, request in refused_ways(document, name):
            place = "%s, %s" % (name, way)
            status, headers, body = desk.reply(*request)
            if status == 200 or str(status) not in operation["responses"]:
                yield "%s: %d is not in the document" % (place, status)
                continue
            seen.add(str(status))
            response = meant(document, operation["responses"][str(status)])
            if headers["content-type"] not in response["content"]:
                yield "%s: nothing is said of %s" % (place, headers["content-type"])
                continue
            yield from misfits(document, response["content"][headers["content-type"]]["schema"], body.decode(), place)
            for header, said in response.get("headers", {}).items():
                yield from misfits(document, meant(document, said)["schema"], headers.get(header), "%s, %s" % (place, header))
        for status in sorted(set(operation["responses"]) - seen):
            yield "%s: %s never comes" % (name, status)


def see_lies(used):
    """Each of the checks sees a document that is wrong. A desk that was used has had all exchanges."""

    def lie(change):
        wrong = copy.deepcopy(DOCUMENT)
        change(wrong)
        return wrong

    def example(document, name, status="200"):
        operation = operations(document)[next(each["operation"] for each in document["x-exchanges"] if each["example"] == name)][2]
        return next(iter(operation["responses"][status]["content"].values()))["examples"][name]

    def first_row(document):
        return example(document, "errsysmods-json")["value"]["rows"][0]

    paths = lie(lambda wrong: wrong["paths"].pop("/zones.json"))
    check("a path that is left out is seen", calls_of(paths) != calls_of_page())
    more = lie(lambda wrong: wrong["paths"].update({"/zones.csv": wrong["paths"]["/zones.json"]}))
    check("a path that the page has not is seen", calls_of(more) != calls_of_page())
    check("a reference to nothing is seen", faulty_references(lie(lambda wrong: wrong["components"]["schemas"].pop("Date"))))
    check("a part that nothing names is seen", faulty_references(lie(lambda wrong: wrong["components"]["schemas"].update(Idle={}))))
    for name, change in (
        ("a field too many", lambda wrong: first_row(wrong).update(categories=[])),
        ("a field too few", lambda wrong: first_row(wrong).pop("date")),
        ("a null where none may be", lambda wrong: first_row(wrong).update(sysmod=None)),
        ("a status of the other report", lambda wrong: first_row(wrong).update(status="LACK")),
        ("a date that is none", lambda wrong: first_row(wrong).update(date="2025-13-01")),
        ("a word in place of a truth", lambda wrong: first_row(wrong).update(received="NO")),
        ("a truth in place of a number", lambda wrong: example(wrong, "published-json")["value"].update(holds=True)),
        ("a chain of two kinds", lambda wrong: example(wrong, "chain-good")["value"].update(blocked="UJ90101")),
        ("a text with more after it", lambda wrong: example(wrong, "published").update(value="PUBLISHED SYSMODS 7 HOLDS 4\n\n")),
        ("a number below 1", lambda wrong: wrong["x-exchanges"][0]["parameters"].update({"bureau-number": 0})),
        ("a word that the checker does not know", lambda wrong: wrong["components"]["schemas"]["Id"].update(maxLength=7)),
    ):
        check("%s is seen" % name, list(example_faults(lie(change))))
    check("an example that is never sent is seen", faults_of_order(lie(lambda wrong: wrong["x-exchanges"].pop())))
    for name, change in (
        ("another date", lambda wrong: first_row(wrong).update(date="2025-04-30")),
        ("keys in another order", lambda wrong: example(wrong, "published-json").update(value={"sysmods": 7, "holds": 4})),
        ("a text without its end", lambda wrong: example(wrong, "published").update(value="PUBLISHED SYSMODS 7 HOLDS 4")),
    ):
        desk = desk_of(DOCUMENT)
        check("%s is seen" % name, len(list(told_otherwise(lie(change), desk))) == 1)
        desk.end()
    for name, change in (
        ("a refusal that is left out", lambda wrong: wrong["paths"]["/received"]["put"]["responses"].pop("411")),
        ("a refusal that never comes", lambda wrong: wrong["paths"]["/zones"]["get"]["responses"].update({"404": {"$ref": "#/components/responses/NotFound"}})),
        (
            "another text of a refusal",
            lambda wrong: wrong["components"]["responses"]["TooLarge"]["content"]["text/plain"]["schema"].update(enum=["TOO LONG\n"]),
        ),
        ("a header that does not come", lambda wrong: wrong["components"]["responses"]["NotAllowed"].update(headers={"allow": {"schema": {"type": "string"}}})),
    ):
        check("%s is seen" % name, list(refusal_faults(lie(change), used)))


class OpenApi(unittest.TestCase):
    def test_the_checks_and_that_they_can_fail(self):
        same("it is written in one way", json.dumps(DOCUMENT, indent=2, ensure_ascii=False) + "\n", TEXT)
        version = subprocess.run([PROGRAM, "--version"], capture_output=True, text=True).stderr.split()
        same("it is of the program's version", ["bureau", DOCUMENT["info"]["version"]], version)
        others = sorted({method for each in DOCUMENT["paths"].values() for method in each} - set(METHODS))
        same("its form is that of OpenAPI 3.1", (DOCUMENT["openapi"], others), ("3.1.0", []))
        same("its calls are those of the page", calls_of(DOCUMENT), calls_of_page())
        same("in the page's order", [key for key in calls_of(DOCUMENT)], [key for key in calls_of_page()])
        same("each operation has a name of its own", len(operations(DOCUMENT)), sum(map(len, DOCUMENT["paths"].values())))
        same("each reference is there, and each part is named", faulty_references(DOCUMENT), [])
        same("each example fits", list(example_faults(DOCUMENT)), [])
        same("each example is sent, and each operation shown", faults_of_order(DOCUMENT), [])
        responses = DOCUMENT["components"]["responses"]
        for status, text in sorted(refusals_of_page()):
            named = {each["$ref"].split("/")[-1] for _, _, said in operations(DOCUMENT).values() for code, each in said["responses"].items() if code == status}
            schemas = [responses[each]["content"]["text/plain"]["schema"] for each in named]
            check("%s %r of the page is in it" % (status, text), any(not list(misfits(DOCUMENT, schema, text)) for schema in schemas))
        desk = desk_of(DOCUMENT)
        for exchange in DOCUMENT["x-exchanges"]:
            status, headers, body = desk.reply(*request_of(DOCUMENT, exchange))
            same("the exchange " + exchange["example"], (status, headers["content-type"], body), reply_of(DOCUMENT, exchange))
        same("each operation is refused as it says", list(refusal_faults(DOCUMENT, desk)), [])
        see_lies(desk)
        desk.end()


if __name__ == "__main__":
    main("openapi")
