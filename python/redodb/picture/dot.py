"""Drawing a target and what it is built from, in the language of `dot`."""

from ..replies import Reason, State, Why
from .graph import Graph, Node

MOST_SOURCES = 8
"""The unchanged sources of a target that are drawn; all others are one node."""
HEAD = """\
digraph redodb {
    rankdir=LR;
    node [shape=box, style=filled, fontname="sans-serif", fontsize=11, color=gray60];
    edge [color=gray50, arrowsize=0.6];
"""
OTHERS = 'class=others, style="", shape=plaintext'
COLOURS = {
    "source": "#e8e8e8",
    "missing": "#ffffff",
    "clean": "#b7e1a1",
    "ood": "#fdcf73",
    "reason": "#f28b82",
}


def quoted(text: str) -> str:
    """Return the text as a string of dot, in which a backslash means itself."""
    return '"' + text.replace("\\", "\\\\").replace('"', '\\"') + '"'


def kind_of(node: Node) -> str:
    """Return the state of a name, by a key of COLOURS."""
    if not node.is_target:
        return "source" if node.has_file else "missing"
    if node.why is None:
        return "clean"
    return "reason" if len(node.why.chain) == 1 else "ood"


def cause(why: Why) -> str:
    """Return a target's own reason in words."""
    if why.reason in (Reason.CHANGED, Reason.APPEARED):
        return f"{why.name.decode()} {why.reason.value}"
    return why.reason.value


class Dot:
    """The text of a graph."""

    def __init__(self, graph: Graph) -> None:
        self.graph = graph
        chain = graph.chain()
        self.bold = set(zip(chain[1:], chain))
        self.on_chain = set(chain)

    def draw(self) -> str:
        """Return the text for `dot`."""
        edges: list[str] = []
        drawn = {name for name, node in self.graph.nodes.items() if node.is_target}
        for name, node in self.graph.nodes.items():
            if node.rows is not None:
                for names, style in ((node.rows.changed, ""), (node.rows.created, "dashed")):
                    few = self._few(names)
                    drawn.update(few)
                    edges += [self._edge(each, name, style) for each in few]
                    edges += self._others(name, [each for each in names if each not in set(few)])
        nodes = [
            self._node(name, self.graph.nodes[name]) for name in self.graph.nodes if name in drawn
        ]
        return HEAD + "".join(line + "\n" for line in nodes + edges) + "}\n"

    def _few(self, names: tuple[bytes, ...]) -> list[bytes]:
        """Return those of a target's names that are drawn: its targets, and some of its sources."""
        plain = [name for name in names if self._is_plain(name)]
        left_out = set(plain[MOST_SOURCES - 1 :]) if len(plain) > MOST_SOURCES else set()
        return [name for name in names if name in self.graph.nodes and name not in left_out]

    def _is_plain(self, name: bytes) -> bool:
        """Whether the name is a source that has nothing to do with the reason."""
        node = self.graph.nodes.get(name)
        return node is not None and not node.is_target and name not in self.on_chain

    def _others(self, target: bytes, names: list[bytes]) -> list[str]:
        """Return nodes for those of a target's names that aren't drawn."""
        lines = []
        sources = sum(name in self.graph.nodes for name in names)
        for count, what in ((sources, "sources"), (len(names) - sources, "targets")):
            if count:
                node = quoted(f"{target.decode()} {what}")
                lines.append(f'    {node} [{OTHERS}, label="{count} more {what}"];')
                lines.append(f"    {node} -> {quoted(target.decode())};")
        return lines

    def _node(self, name: bytes, node: Node) -> str:
        kind = kind_of(node)
        label = quoted(name.decode())
        if kind == "reason" and node.why is not None:
            label = label[:-1] + "\\n" + quoted(cause(node.why))[1:]
        styles = ["filled"]
        if kind == "missing":
            styles.append("dashed")
        if name in self.on_chain:
            styles.append("bold")
        shown = f'class={kind}, fillcolor="{COLOURS[kind]}", style="{",".join(styles)}"'
        if node.state is State.BUILDING:
            shown += ", peripheries=2"
        return f"    {quoted(name.decode())} [{shown}, label={label}];"

    def _edge(self, source: bytes, target: bytes, style: str) -> str:
        styles = [style] if style else []
        shown = ""
        if (source, target) in self.bold:
            styles.append("bold")
            shown = "color=red, penwidth=2"
        if styles:
            shown = ", ".join(filter(None, [f'style="{",".join(styles)}"', shown]))
        return f"    {quoted(source.decode())} -> {quoted(target.decode())}" + (
            f" [{shown}];" if shown else ";"
        )
