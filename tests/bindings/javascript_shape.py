"""Events as the package for JavaScript and the page give them, made from the lines that mdevents writes."""
import json

FIELDS_OF_START = {
    "Heading": ["level", "id", "classes", "attrs"],
    "BlockQuote": ["kind"],
    "List": ["firstNumber"],
    "FootnoteDefinition": ["label"],
    "Table": ["alignments"],
    "MetadataBlock": ["kind"],
}
FIELDS_OF_END = {"Heading": ["level"], "BlockQuote": ["kind"], "List": ["isOrdered"], "MetadataBlock": ["kind"]}


def places_of(text):
    """For each byte of a text, and its end, the index in a string of JavaScript."""
    places, at = [], 0
    for character in text:
        places += [at] * len(character.encode())
        at += 1 + (ord(character) > 0xFFFF)
    return [*places, at]


def tag(name, *data):
    """The tag of a start."""
    if name == "CodeBlock":
        (kind, *info), = data
        return {"name": name, "kind": kind, "info": info[0] if info else None}
    if name in ("Link", "Image"):
        link_type, dest_url, title, label = data
        wikilink = isinstance(link_type, list)
        kind = {"linkType": link_type[0], "hasPothole": link_type[1]} if wikilink else {"linkType": link_type}
        return {"name": name, **kind, "destUrl": dest_url, "title": title, "id": label}
    return {"name": name, **dict(zip(FIELDS_OF_START.get(name, ()), data, strict=True))}


def end_tag(name, *data):
    """The tag of an end."""
    return {"name": name, **dict(zip(FIELDS_OF_END.get(name, ()), data, strict=True))}


def event_of(line, places):
    """The event of a line, with its range in the places of a text."""
    given = json.loads(line)
    (start, end), (name, *data) = given["range"], given["event"]
    if name in ("Start", "End"):
        value = (tag if name == "Start" else end_tag)(*data[0])
    else:
        value = data[0] if data else None
    return {"name": name, "value": value, "start": places[start], "end": places[end]}


def events_of(lines, text):
    """The events of a text, from the bytes that mdevents writes for it."""
    places = places_of(text)
    return [event_of(it, places) for it in lines.decode().split("\n")[:-1]]


def merged(events):
    """The events with each run of adjacent texts joined. A run of two or more that is empty is left out."""
    found = []
    for event in events:
        if event["name"] == "Text" and found and found[-1][-1]["name"] == "Text":
            found[-1].append(event)
        else:
            found.append([event])
    joined = [run[0] if len(run) == 1 else {**run[0], "value": "".join(it["value"] for it in run), "end": run[-1]["end"]} for run in found]
    return [it for run, it in zip(found, joined) if len(run) == 1 or it["value"]]
