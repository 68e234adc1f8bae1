"""A generated tree of trivial targets, for redo, ninja, make and tup alike.

Each target is two files, one of them common to all, put together. A list of each folder depends on
the folder's targets, and `top` on all lists."""
from pathlib import Path

IN_FOLDER = 100
TARGET_DO = 'redo-ifchange "$2.in" common\ncat "$2.in" common >"$3"\n'
LIST_DO = (
    'folder=${1%/*}\nsed "s,^,$folder/," "$folder/members" | xargs redo-ifchange\necho "$1" >"$3"\n'
)
TOP_DO = 'xargs redo-ifchange <lists\necho "$1" >"$3"\n'
NINJA = """\
rule cat
  command = cat $in >$out
rule list
  command = echo $out >$out
"""


class Forest:
    """This many targets, in folders of a hundred, below a folder."""

    def __init__(self, folder: Path, targets: int) -> None:
        self.folder = folder
        self.targets = [f"d{at // IN_FOLDER}/t{at % IN_FOLDER}.out" for at in range(targets)]
        self.folders = [f"d{at}" for at in range((targets + IN_FOLDER - 1) // IN_FOLDER)]

    def members(self, folder: str) -> list[str]:
        return [target for target in self.targets if target.startswith(f"{folder}/")]

    def write(self) -> None:
        """Writes the sources, and what each tool reads."""
        texts = {f"{target.removesuffix('.out')}.in": f"{target}\n" for target in self.targets}
        for folder in self.folders:
            names = [target.removeprefix(f"{folder}/") for target in self.members(folder)]
            texts[f"{folder}/members"] = "".join(f"{name}\n" for name in names)
        texts |= {"common": "common\n"}
        texts |= {"lists": "".join(f"{folder}/all.list\n" for folder in self.folders)}
        texts |= {"default.out.do": TARGET_DO, "default.list.do": LIST_DO, "top.do": TOP_DO}
        texts |= {"build.ninja": NINJA + self._edges(), "Makefile": self._rules()}
        texts |= {"Tupfile": self._tupfile()}
        for name, text in texts.items():
            path = self.folder / name
            path.parent.mkdir(parents=True, exist_ok=True)
            path.write_text(text)

    def _edges(self) -> str:
        lines = [f"build {target}: cat {self.source(target)} common" for target in self.targets]
        lines += [
            f"build {folder}/all.list: list {' '.join(self.members(folder))}"
            for folder in self.folders
        ]
        lines += [
            f"build top: list {self._lists()}",
            "default top",
        ]
        return "".join(f"{line}\n" for line in lines)

    def _lists(self) -> str:
        return " ".join(f"{folder}/all.list" for folder in self.folders)

    def _tupfile(self) -> str:
        lines = [f": {self.source(name)} common |> cat %f >%o |> {name}" for name in self.targets]
        lines += [
            f": {' '.join(self.members(folder))} |> echo %o >%o |> {folder}/all.list"
            for folder in self.folders
        ]
        lines.append(f": {self._lists()} |> echo %o >%o |> top")
        return "".join(f"{line}\n" for line in lines)

    def _rules(self) -> str:
        lists = {f"{each}/all.list": " ".join(self.members(each)) for each in self.folders}
        rules = {"top": self._lists(), **lists}
        lines = [f"{name}: {inputs}\n\techo $@ >$@" for name, inputs in rules.items()]
        for target in self.targets:
            lines.append(f"{target}: {self.source(target)} common\n\tcat $^ >$@")
        return "".join(f"{line}\n" for line in lines)

    @staticmethod
    def source(target: str) -> str:
        return f"{target.removesuffix('.out')}.in"

    def edit_common(self, text: str) -> None:
        """Adds a line to the file that all targets depend on."""
        with (self.folder / "common").open("a") as common:
            common.write(f"{text}\n")

    def check_built(self) -> None:
        """Ends this program if a target isn't what its sources make it."""
        common = (self.folder / "common").read_text()
        for target in self.targets:
            wanted = (self.folder / self.source(target)).read_text() + common
            if (self.folder / target).read_text() != wanted:
                raise SystemExit(f"{self.folder / target} was built wrong")
