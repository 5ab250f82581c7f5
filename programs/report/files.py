"""The names of files and folders, and which are open (Linux `fuse.h`: LOOKUP, CREATE, MKNOD, MKDIR, OPEN, UNLINK, RMDIR and RELEASE)."""
from collections import Counter


class Files:
    def __init__(self):
        self.names = {}  # of each node, also once it is unlinked
        self.linked = {}  # the node of each name
        self.open = {}  # the node of each open file
        self.opened = Counter()  # how many open files each node has

    def name(self, name, node):
        self.names[node] = name
        self.linked[name] = node

    def name_unlinked(self, name, node):
        self.names[node] = name

    def unlink(self, name):
        self.linked.pop(name, None)

    def open_as(self, fh, node):
        self.open[fh] = node
        self.opened[node] += 1

    def close(self, fh):
        node = self.open.pop(fh, None)
        if node is not None:
            self.opened[node] -= 1

    def label(self, node):
        """The name of a node, or its number if no reply has named it. What can't be printed is written as Python does."""
        if node not in self.names:
            return f"node {node}"
        text = self.names[node].decode("utf-8", "backslashreplace")
        return "".join(it if it.isprintable() else it.encode("unicode_escape").decode() for it in text) or "(no name)"

    def is_unlinked(self, node):
        return node in self.names and self.linked.get(self.names[node]) != node
