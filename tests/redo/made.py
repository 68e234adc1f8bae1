"""A tree of some hundred targets that is generated, and what has to be in it once it is built."""
from collections.abc import Iterable
from dataclasses import dataclass, field

from trees import Tree

HEADER_DO = "%(ran)sredo-ifchange header.in\n(echo header; cat header.in)\n"
OBJECT_DO = '%(ran)sredo-ifchange "$2.c" header.h\ncat "$2.c" header.h\n'
GROUP_DO = '%(ran)sredo-ifchange "$2.list"\nredo-ifchange $(cat "$2.list")\ncat $(cat "$2.list")\n'
ALL_DO = "%(ran)sredo-ifchange groups\nredo-ifchange $(cat groups)\ncat $(cat groups)\n"


@dataclass
class Made:
    """`all` is made of groups, a group of objects, each of a source and a built header.

    `text` is what the header has in it, and `texts` the sources of each group.
    """

    tree: Tree
    groups: int
    objects: int
    counted: bool = False
    text: str = ""
    texts: dict[int, str] = field(default_factory=dict)

    @property
    def targets(self) -> list[str]:
        """The names of all targets."""
        objects = [f"{name}.o" for group in range(self.groups) for name in self.names(group)]
        return ["all", "header.h", *[f"group{group}.a" for group in range(self.groups)], *objects]

    def names(self, group: int) -> list[str]:
        """The names of a group's objects, without what follows the dot."""
        return [f"object{group}_{number}" for number in range(self.objects)]

    def write(self, text: str) -> None:
        """Writes the .do files, and sources that have this text in them."""
        ran = {"ran": 'echo "$$" >>"ran.$1"\n' if self.counted else ""}
        self.tree.write("header.h.do", HEADER_DO % ran)
        self.tree.write("default.o.do", OBJECT_DO % ran)
        self.tree.write("default.a.do", GROUP_DO % ran)
        self.tree.write("all.do", ALL_DO % ran)
        self.tree.write("groups", "".join(f"group{group}.a\n" for group in range(self.groups)))
        self.edit(text)

    def edit(self, text: str) -> None:
        """Writes all sources anew."""
        self.text = text
        self.tree.write("header.in", text + "\n")
        self.edit_groups(range(self.groups), text)

    def edit_groups(self, groups: Iterable[int], text: str) -> None:
        """Writes the sources of some groups anew."""
        for group in groups:
            self.texts[group] = text
            names = self.names(group)
            self.tree.write(f"group{group}.list", "".join(f"{name}.o\n" for name in names))
            for name in names:
                self.tree.write(f"{name}.c", f"{name} {text}\n")

    def wanted(self) -> dict[str, str]:
        """What each target has to hold, by name."""
        found = {"header.h": f"header\n{self.text}\n"}
        for group in range(self.groups):
            for name in self.names(group):
                found[f"{name}.o"] = f"{name} {self.texts[group]}\n" + found["header.h"]
            found[f"group{group}.a"] = "".join(found[f"{name}.o"] for name in self.names(group))
        found["all"] = "".join(found[f"group{group}.a"] for group in range(self.groups))
        return found

    def wrong(self) -> list[str]:
        """The names of the targets that don't hold what they have to."""
        return [name for name, wanted in self.wanted().items() if self.tree.read(name) != wanted]
