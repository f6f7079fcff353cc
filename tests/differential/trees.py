"""Trees of linked nodes, by what the sources' comments say that each call does. Nothing here knows the library."""


class Tree:
    """Nodes from 1 on, each an item, its first child and its next sibling; the focus; the path down to its parent."""

    def __init__(self):
        self.nodes, self.focus, self.spine = {}, None, []

    def create_node(self, item):
        self.nodes[len(self.nodes) + 1] = [item, None, None]
        return len(self.nodes)

    def link(self, node):
        """Links what follows the focus, or is the first child of the parent."""
        if self.focus:
            self.nodes[self.focus][2] = node
        elif self.spine:
            self.nodes[self.spine[-1]][1] = node

    def append(self, item):
        node = self.create_node(item)
        self.link(node)
        self.focus = node
        return node

    def push(self):
        parent = self.focus
        self.spine.append(parent)
        self.focus = self.nodes[parent][1]
        return parent

    def pop(self):
        if self.spine:
            self.focus = self.spine.pop()
            return self.focus
        return None

    def remove_node(self):
        """As `pop`; the node that was made last goes, and the parent's child link."""
        parent = self.pop()
        del self.nodes[len(self.nodes)]
        self.nodes[parent][1] = None
        return parent

    def reset(self):
        self.focus, self.spine = 1 if self.nodes else None, []

    def next_sibling(self, node):
        self.focus = self.nodes[node][2]
        return self.focus

    def in_order(self, node=1, depth=0):
        """Each node from this one on with its depth: the node, what is below it, and its later siblings."""
        found = []
        while node in self.nodes:
            found += [(node, depth), *self.in_order(self.nodes[node][1], depth + 1)]
            node = self.nodes[node][2]
        return found

    def truncate_to_parent(self, node):
        """The next link of a node goes to the focus, or to the parent as its child; the focus moves along it."""
        taken, self.nodes[node][2] = self.nodes[node][2], None
        self.link(taken)
        self.focus = taken or self.focus

    def cut_children(self, end):
        """Of items that are ranges: the first child of the parent that doesn't end before the place ends there and is the
        last, and in focus, if it begins before that place."""
        child = self.nodes[self.spine[-1]][1]
        while self.nodes[child][0][1] < end:
            child = self.nodes[child][2]
        assert self.nodes[child][0][0] < end
        self.nodes[child][0][1], self.nodes[child][2], self.focus = end, None, child

    def described(self, word, count):
        """The focus, the spine, and so many nodes."""
        links = [f"node {at} {item} {child or '-'} {following or '-'}"
                 for at, (item, child, following) in list(self.nodes.items())[:count]]
        return " ".join([word, "focus", str(self.focus or "-"), "spine", *map(str, self.spine), *links])


def nested(*items):
    """Each item in the one before it, the last in focus."""
    tree = Tree()
    for item in items[:-1]:
        tree.append(item)
        tree.push()
    tree.append(items[-1])
    return tree
