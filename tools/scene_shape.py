"""The shape of a scene: what docs/scene.schema.json says of each place, and docs/SCENES.md of each fault."""
import json
import os
import re

DOCS = os.path.join(os.path.dirname(os.path.dirname(os.path.abspath(__file__))), "docs")


def read_doc(name):
    """The text of a document."""
    with open(os.path.join(DOCS, name), encoding="utf-8") as file:
        return file.read()


class Shape:
    """The schema, and where one is in it."""

    def __init__(self):
        self.schema = json.loads(read_doc("scene.schema.json"))

    def resolve(self, name, node):
        """A node, or what it refers to with its name."""
        while True:
            node = node.get("allOf", [node])[0] if "properties" not in node else node
            if "$ref" not in node:
                return name, node
            name = node["$ref"].rsplit("/", 1)[-1]
            node = self.schema["$defs"][name]

    def at(self, steps):
        """The name and the node of a place; an item has the name of its list's items."""
        name, node = "scene", self.schema
        for step in steps:
            inner = node.get("items") if step.isdigit() else node.get("properties", {}).get(step)
            if not isinstance(inner, dict):
                return step, {}
            name, node = self.resolve(step, inner)
        return node.get("title", name) if steps else name, node

    def acts(self):
        """The node of each act, by its word."""
        found = {}
        for node in self.schema["$defs"]["act"]["oneOf"]:
            first = node["prefixItems"][0]
            found.update((word, node) for word in first.get("enum", [first.get("const")]))
        return found


def when_of_faults():
    """When each fault comes, by the table of SCENES.md."""
    found = {}
    for words, when in re.findall(r"^\| (`.*?`) \| (.*) \|$", read_doc("SCENES.md").split("\n## Faults\n")[1], re.M):
        for word in re.findall(r"`(\w+)`", words):
            found.setdefault(word, when)
    return found
