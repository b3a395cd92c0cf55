"""The sentences that stand in comments above the edges of a document. The program passes them over."""
from __future__ import annotations

import re
import xml.etree.ElementTree as ET

PAIR = re.compile(r"\(([^(){}]*)\)")
INTEGER = re.compile(r"\s*([-−]?\d{1,10})\s*")
MOST_EDGES = 4
"""A comment above more edges than these is a heading and no sentence."""
PASSED_OVER = ("derived", "internal")


def sentences(document: bytes) -> list[tuple[str, str, int, str]]:
    """For each value of an edge its source, target, number and sentence; nothing where the document is no plain XML."""
    try:
        parser = ET.XMLParser(target=ET.TreeBuilder(insert_comments=True), encoding="utf-8")
        graph = next(e for e in ET.fromstring(document, parser=parser) if local(e) == "graph")
    except (ET.ParseError, StopIteration, ValueError, LookupError):
        return []
    groups: list[tuple[str, list[ET.Element]]] = [("", [])]
    for element in graph:
        if local(element) == "edge":
            groups[-1][1].append(element)
        else:
            groups.append((" ".join((element.text or "").split()) if local(element) == "" else "", []))
    return [value for says, edges in groups for edge in edges
            for value in of_edge(edge, says if len(edges) <= MOST_EDGES else "")]


def of_edge(edge: ET.Element, says: str) -> list[tuple[str, str, int, str]]:
    data = {each.get("key"): "".join(each.itertext()).strip() for each in edge if local(each) == "data"}
    if data.get("Type") in PASSED_OVER:
        return []
    found: list[tuple[str, str, int, str]] = []
    for pair in PAIR.findall(data.get("LabeledValues", "")):
        for part in pair.split(","):
            if (number := INTEGER.fullmatch(part)) is not None:
                found.append((edge.get("source", ""), edge.get("target", ""), int(number[1].replace("−", "-")), says))
                break
    return found


def local(element: ET.Element) -> str:
    """The name of an element without its namespace, and nothing of a comment."""
    return element.tag.rsplit("}", 1)[-1] if isinstance(element.tag, str) else ""
