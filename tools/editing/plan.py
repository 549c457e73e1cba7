"""The edits of one key, with the ids that what they bring will have."""

from editing.document import count_of


class Plan:
    """Edits in their order. An element that they bring is found by the object that stands for it."""

    def __init__(self, tree):
        self.edits, self.next_id, self.ids = [], tree.next_id, {}

    def insert(self, row, index, value):
        self.bring(value)
        self.edits.append({"op": "insert", "node": row, "index": index, "element": value})

    def replace(self, node, value):
        self.bring(value)
        self.edits.append({"op": "replace", "node": node, "element": value})

    def remove(self, node):
        self.edits.append({"op": "remove", "node": node})

    def text(self, node, text):
        self.edits.append({"op": "text", "node": node, "text": text})

    def attribute(self, node, name, value):
        edit = {"op": "attr", "node": node, "name": name}
        self.edits.append(edit if value is None else {**edit, "value": value})

    def bring(self, value):
        """Notes the ids that an element and all below it get."""
        waiting, id = [value], self.next_id
        while waiting:
            each = waiting.pop()
            self.ids[builtin_id(each)] = id
            id += 1
            waiting += reversed(each.get("children", []))
        self.next_id += count_of(value)

    def id_of(self, value):
        return self.ids[builtin_id(value)]


builtin_id = id
