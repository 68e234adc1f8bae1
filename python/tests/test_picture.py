"""`redodb picture`: the structure of its pictures, by hand from the histories that they are of."""

import contextlib
import io
import re
import shutil
import subprocess
import unittest
import xml.etree.ElementTree as ET
from pathlib import Path

import beside  # noqa: F401
from redodb.conversation import Conversation
from redodb.picture.lanes import Ending, MarkKind, lanes_of
from redodb.picture.main import main
from redodb.picture.told import Line, read_lines
from trees import TreeTest, program_answers

SVG = "{http://www.w3.org/2000/svg}"
PICTURES = Path(__file__).resolve().parent.parent.parent / "docs/pictures"
HISTORY = """\
history 25
1 file a.c 10 => ok
1 file util.h 10 => ok
1 lock a.o => granted 1
1 start a.o => ok
2 lock a.o => busy 1
1 ifchange a.o a.c util.h none.h => stale none.h
2 lock b.o => granted 1
2 start b.o => ok
2 ifcreate b.o config.h => ok
2 ifchange b.o util.h => ok
1 done a.o 20 => ok
1 unlock a.o => ok
2 done b.o 20 => ok
2 lock app => granted 1
2 start app => ok
2 ifchange app a.o b.o => ok
2 ifchange app app => refused self
2 done app 3 => ok
2 unlock app => ok
2 unlock b.o => ok
1 file a.c 11 => ok
3 ood => ood a.o app
3 lock c.o => granted 1
3 start c.o => ok
3 failed c.o => ok
"""

BODY = """\
a 1 built 7 s2 a9993e364706816aba3e25717850c26c9cd0d89d 7 -
1 4 failed 2 = - 2 -
c -
0 1 1b1 2=
"""
STATE = f"redodb-log 2\nstate 3 {len(BODY)} 22f1f3b64492f4d2bfa3a3cad318c1450713509c\n{BODY}"


def picture(*words: str) -> tuple[int, str, str]:
    """Return status, standard output and standard error of `redodb picture` with these words."""
    out, errors = io.StringIO(), io.StringIO()
    with contextlib.redirect_stdout(out), contextlib.redirect_stderr(errors):
        status = main(list(words))
    return status, out.getvalue(), errors.getvalue()


class PictureTest(TreeTest):
    def history(self, text: str = HISTORY) -> str:
        return str(self.write("history", text))

    def told(self, commands: list[str]) -> str:
        """Return a file with the history of these commands of session 1."""
        with Conversation() as database:
            lines = list(database.ask_all(f"1 {command}".encode() for command in commands))
        return self.history(
            f"history {len(lines)}\n" + "".join(f"{line.decode()}\n" for line in lines)
        )

    def drawn(self, *words: str) -> str:
        status, out, errors = picture(*words)
        self.assertEqual((status, errors), (0, ""))
        return out

    def assert_fault(self, line: str, *words: str) -> None:
        self.assertEqual(picture(*words), (2, "", f"redodb picture: {line}\n"))


class Lanes(PictureTest):
    def test_locks_and_builds(self) -> None:
        lanes = lanes_of(read_lines(self.history().encode()))
        held = {
            hold.target: (hold.session, hold.row, hold.first, hold.last) for hold in lanes.holds
        }
        self.assertEqual(
            held,
            {
                "a.o": (1, 0, 3, 12),
                "b.o": (2, 0, 7, 20),
                "app": (2, 1, 14, 19),
                "c.o": (3, 0, 23, 25),
            },
        )
        builds = {
            hold.target: [(build.first, build.last, build.ending) for build in hold.builds]
            for hold in lanes.holds
        }
        self.assertEqual(
            builds,
            {
                "a.o": [(4, 11, Ending.DONE)],
                "b.o": [(8, 13, Ending.DONE)],
                "app": [(15, 18, Ending.DONE)],
                "c.o": [(24, 25, Ending.FAILED)],
            },
        )

    def test_marks(self) -> None:
        marks = {
            mark.line: (mark.session, mark.kind)
            for mark in lanes_of(read_lines(self.history().encode())).marks
        }
        self.assertEqual(
            marks,
            {
                1: (1, MarkKind.FILE),
                2: (1, MarkKind.FILE),
                5: (2, MarkKind.BUSY),
                6: (1, MarkKind.STALE),
                17: (2, MarkKind.REFUSED),
                21: (1, MarkKind.FILE),
                22: (3, MarkKind.LIST),
            },
        )

    def test_build_that_is_open_at_the_end(self) -> None:
        lines = [
            Line(1, "lock", ("t",), "granted 1"),
            Line(1, "start", ("t",), "ok"),
            Line(1, "ood", (), "ood"),
        ]
        (hold,) = lanes_of(lines).holds
        self.assertEqual(
            (hold.last, hold.builds[0].last, hold.builds[0].ending), (3, 3, Ending.OPEN)
        )

    def test_rows_are_used_again(self) -> None:
        lines = [
            Line(1, word, (name,), "granted 1" if word == "lock" else "ok")
            for word, name in (
                ("lock", "a"),
                ("lock", "b"),
                ("unlock", "a"),
                ("lock", "c"),
                ("unlock", "b"),
            )
        ]
        lanes = lanes_of(lines)
        self.assertEqual({hold.target: hold.row for hold in lanes.holds}, {"a": 0, "b": 1, "c": 0})
        self.assertEqual(
            {hold.target: hold.row for hold in lanes.within(5, 5).holds}, {"b": 0, "c": 1}
        )

    def test_lines_that_fit_nothing(self) -> None:
        lines = [
            Line(1, "unlock", ("a",), "ok"),
            Line(2, "start", ("a",), "ok"),
            Line(3, "done", ("a", "1"), "ok"),
        ]
        self.assertEqual(lanes_of(lines).holds, [])


class Run(PictureTest):
    def root(self, *words: str) -> ET.Element:
        root = ET.fromstring(self.drawn("run", *words))
        self.assertEqual(root.tag, SVG + "svg")
        return root

    def groups(self, root: ET.Element, kind: str) -> dict[str, ET.Element]:
        """Return the groups of a kind by their titles."""
        found = [group for group in root.iter(SVG + "g") if group.get("class") == kind]
        return {group.findtext(SVG + "title", ""): group for group in found}

    def boxes(self, group: ET.Element, kind: str) -> list[tuple[float, float]]:
        """Return from where to where the boxes of a kind go."""
        found = [
            box
            for box in group.iter(SVG + "rect")
            if (box.get("class") or "").split(" ")[0] == kind
        ]
        return [
            (float(box.get("x", "")), float(box.get("x", "")) + float(box.get("width", "")))
            for box in found
        ]

    def test_a_lane_for_each_session(self) -> None:
        lanes = self.groups(self.root(self.history()), "session")
        self.assertEqual(list(lanes), ["session 1", "session 2", "session 3"])
        holds = {title: list(self.groups(lane, "hold")) for title, lane in lanes.items()}
        self.assertEqual(
            holds, {"session 1": ["a.o"], "session 2": ["b.o", "app"], "session 3": ["c.o"]}
        )
        marks = {
            title: [text.split(":")[0] for text in self.groups(lane, "mark")]
            for title, lane in lanes.items()
        }
        self.assertEqual(
            marks,
            {"session 1": ["1", "2", "6", "21"], "session 2": ["5", "17"], "session 3": ["22"]},
        )

    def test_boxes_go_from_line_to_line(self) -> None:
        holds = self.groups(self.root(self.history()), "hold")
        (lock,), (build,) = self.boxes(holds["a.o"], "lock"), self.boxes(holds["a.o"], "build")
        step = (lock[1] - lock[0]) / 10
        self.assertAlmostEqual(build[0], lock[0] + step)
        self.assertAlmostEqual(build[1], lock[1] - step)
        (other,) = self.boxes(holds["app"], "lock")
        self.assertAlmostEqual(other[0] - lock[0], (14 - 3) * step)

    def test_lanes_and_boxes_lie_apart(self) -> None:
        root = self.root(self.history())
        lanes = [box for box in root.iter(SVG + "rect") if box.get("class") == "lane"]
        edges = [
            (float(box.get("y", "")), float(box.get("y", "")) + float(box.get("height", "")))
            for box in lanes
        ]
        self.assertTrue(all(upper[1] < lower[0] for upper, lower in zip(edges, edges[1:])))
        locks = [
            box
            for hold in ("b.o", "app")
            for box in self.groups(root, "hold")[hold].iter(SVG + "rect")
            if box.get("class") == "lock"
        ]
        self.assertGreaterEqual(
            float(locks[1].get("y", "")),
            float(locks[0].get("y", "")) + float(locks[0].get("height", "")),
        )

    def test_window(self) -> None:
        whole = self.boxes(self.groups(self.root(self.history()), "hold")["a.o"], "lock")[0]
        root = self.root(self.history(), "--lines", "10-15")
        self.assertEqual(set(self.groups(root, "hold")), {"a.o", "b.o", "app"})
        self.assertEqual(self.groups(root, "mark"), {})
        boxes = [
            box for hold in self.groups(root, "hold").values() for box in self.boxes(hold, "lock")
        ]
        left, right = whole[0] - 2 * (whole[1] - whole[0]) / 10, float(root.get("width", ""))
        self.assertTrue(all(left <= begin < end <= right for begin, end in boxes))
        self.assertEqual(boxes[1], (min(box[0] for box in boxes), max(box[1] for box in boxes)))

    def test_window_shows_a_session_only_where_it_did_something(self) -> None:
        self.assertEqual(
            list(self.groups(self.root(self.history(), "--lines", "21-25"), "session")),
            ["session 1", "session 3"],
        )

    def test_window_behind_the_end(self) -> None:
        self.assertEqual(
            list(self.groups(self.root(self.history(), "--lines", "900-901"), "session")),
            ["session 3"],
        )

    def test_long_history_shows_its_first_lines(self) -> None:
        text = "history 2000\n" + "1 file a 1 => ok\n" * 2000
        self.assertEqual(len(self.groups(self.root(self.history(text)), "mark")), 500)

    def test_names_that_are_markup(self) -> None:
        name = "<a&b>\"'</svg>"
        text = f"history 2\n1 lock {name} => granted 1\n1 unlock {name} => ok\n"
        self.assertEqual(list(self.groups(self.root(self.history(text)), "hold")), [name])

    def test_log(self) -> None:
        log = self.history("redodb-log 1\n1 lock a => granted 1\n1 start a => ok\n1 torn")
        self.assertEqual(list(self.groups(self.root(log), "hold")), ["a"])

    def test_log_that_begins_with_a_state(self) -> None:
        log = self.history(f"{STATE}1 lock a => granted 8\n1 start a => ok\n2 file b 1 => ok\n1 to")
        root = self.root(log)
        self.assertEqual(list(self.groups(root, "session")), ["session 1", "session 2"])
        self.assertEqual(list(self.groups(root, "hold")), ["a"])
        self.assertEqual([text.split(":")[0] for text in self.groups(root, "mark")], ["3"])

    def test_log_that_is_a_state_alone(self) -> None:
        self.assertEqual(self.groups(self.root(self.history(STATE)), "session"), {})

    def test_states_that_are_none(self) -> None:
        for text, cause in (
            ("redodb-log 2\n", "line 2 is none of a log"),
            ("redodb-log 2\nstate 3 73 90", "line 2 is none of a log"),
            ("redodb-log 2\nstate 3 73\n", "line 2 is none of a log"),
            ("redodb-log 2\nstate 3 -1 0\n", "line 2 is none of a log"),
            ("redodb-log 2\n1 lock a => granted 1\n", "line 2 is none of a log"),
            (STATE[:-1], "cut"),
            ("redodb-log 3\n", "no history and no log"),
        ):
            with self.subTest(text):
                log = self.history(text)
                self.assert_fault(f"{log}: {cause}", "run", log)

    def test_line_after_a_state_that_is_none_of_a_history(self) -> None:
        log = self.history(f"{STATE}1 lock a => granted 8\n1 1 0=\n")
        self.assert_fault(f"{log}: line 2 is none of a history", "run", log)

    def test_empty_history(self) -> None:
        self.assertEqual(self.groups(self.root(self.history("history 0\n")), "session"), {})

    def test_faults(self) -> None:
        history = self.history("session 1 0\n")
        self.assert_fault(f"{history}: no history and no log", "run", history)
        self.history("history 2\n1 ood => ood\n")
        self.assert_fault(f"{history}: cut", "run", history)
        self.history("history 2\n1 ood => ood\nood\n")
        self.assert_fault(f"{history}: line 2 is none of a history", "run", history)
        self.assert_fault(f"{self.top}/none: No such file or directory", "run", f"{self.top}/none")

    def test_words_that_ask_for_nothing(self) -> None:
        for words in (
            (),
            ("run",),
            ("walk", "a"),
            ("run", "a", "b"),
            ("run", "a", "--lines"),
            ("run", "a", "--lines", "5"),
            ("run", "a", "--lines", "5-4"),
            ("run", "a", "--lines", "0-4"),
            ("graph", "a"),
            ("graph", "a", "#b"),
            ("graph", "a", "b", "--targets", "0"),
        ):
            with self.subTest(words):
                status, out, errors = picture(*words)
                self.assertEqual((status, out), (2, ""))
                self.assertTrue(errors.startswith("usage: redodb picture"))


@unittest.skipUnless(program_answers(), "wants redodb-live")
class TargetGraph(PictureTest):
    def graph(
        self, *words: str
    ) -> tuple[dict[str, dict[str, str]], dict[tuple[str, str], dict[str, str]]]:
        """Return the nodes and edges of the text for dot, with their attributes."""
        return parsed(self.drawn("graph", *words))

    def bold(self, edges: dict[tuple[str, str], dict[str, str]]) -> set[tuple[str, str]]:
        return {
            edge
            for edge, attributes in edges.items()
            if "bold" in attributes.get("style", "").split(",")
        }

    def others(
        self, nodes: dict[str, dict[str, str]], edges: dict[tuple[str, str], dict[str, str]]
    ) -> set[tuple[str, str]]:
        """Return the labels of the nodes that stand for several names, with the targets above."""
        return {
            (nodes[below]["label"], above)
            for below, above in edges
            if nodes[below]["class"] == "others"
        }

    def test_nodes_and_edges(self) -> None:
        nodes, edges = self.graph(self.history(), "app")
        self.assertEqual(
            {name: attributes["class"] for name, attributes in nodes.items()},
            {
                "app": "ood",
                "a.o": "reason",
                "b.o": "clean",
                "a.c": "source",
                "util.h": "source",
                "none.h": "missing",
                "config.h": "missing",
            },
        )
        self.assertEqual(
            set(edges),
            {
                ("a.o", "app"),
                ("b.o", "app"),
                ("a.c", "a.o"),
                ("util.h", "a.o"),
                ("none.h", "a.o"),
                ("util.h", "b.o"),
                ("config.h", "b.o"),
            },
        )
        self.assertEqual(self.bold(edges), {("a.c", "a.o"), ("a.o", "app")})
        dashed = {
            edge for edge, attributes in edges.items() if "dashed" in attributes.get("style", "")
        }
        self.assertEqual(dashed, {("config.h", "b.o")})
        self.assertEqual(nodes["a.o"]["label"], r"a.o\na.c changed")

    def test_up_to_date_target_has_no_bold_chain(self) -> None:
        nodes, edges = self.graph(self.history(), "b.o")
        self.assertEqual((set(nodes), self.bold(edges)), ({"b.o", "util.h", "config.h"}, set()))
        self.assertEqual(nodes["b.o"]["class"], "clean")

    def test_every_reason(self) -> None:
        build = ["lock t", "start t", "ifchange t s", "ifcreate t new"]
        built = [*build, "done t 1"]
        for ending, reason, bold in (
            (build, "building", set()),
            ([*build, "failed t"], "failed", set()),
            ([*built, "file t 2"], "edited", set()),
            ([*build, "always t", "done t 1"], "always", set()),
            ([*built, "file new 1"], "new appeared", {("new", "t")}),
            ([*built, "file s 2"], "s changed", {("s", "t")}),
        ):
            with self.subTest(reason):
                nodes, edges = self.graph(self.told(["file s 1", *ending]), "t")
                self.assertEqual(nodes["t"]["label"], rf"t\n{reason}")
                self.assertEqual(self.bold(edges), bold)

    def test_long_chain_is_shown_whole_and_others_up_to_the_limit(self) -> None:
        commands = ["file s 1"]
        for at in range(60):
            commands += [
                f"lock c{at}",
                f"start c{at}",
                f"ifchange c{at} {f'c{at - 1}' if at else 's'}",
                f"done c{at} 1",
            ]
        for at in range(20):
            commands += [
                f"lock d{at}",
                f"start d{at}",
                f"ifchange d{at} s",
                f"stamp d{at} -",
                f"done d{at} 1",
            ]
        commands += [
            "lock top",
            "start top",
            "ifchange top c59 " + " ".join(f"d{at}" for at in range(20)),
            "done top 1",
        ]
        nodes, edges = self.graph(self.told([*commands, "file s 1"]), "top", "--targets", "30")
        targets = {name for name, attributes in nodes.items() if attributes["class"] == "clean"}
        self.assertEqual(
            targets, {"top", *(f"d{at}" for at in range(20)), *(f"c{at}" for at in range(51, 60))}
        )
        self.assertEqual(self.others(nodes, edges), {("1 more targets", "c51")})
        commands[-1:] = ["done top 1", "lock c0", "start c0", "failed c0"]
        nodes, edges = self.graph(self.told(commands), "top", "--targets", "30")
        chain = ["c0", *(f"c{at}" for at in range(1, 60)), "top"]
        self.assertEqual(self.bold(edges), set(zip(chain, chain[1:])))
        self.assertEqual(self.others(nodes, edges), {("20 more targets", "top")})

    def test_many_sources_are_one_node(self) -> None:
        names = [f"h{at}" for at in range(30)]
        commands = [f"file {name} 1" for name in names] + [
            "lock t",
            "start t",
            f"ifchange t {' '.join(names)}",
            "done t 1",
        ]
        nodes, edges = self.graph(self.told(commands), "t")
        self.assertEqual((len(nodes), len(edges)), (1 + 7 + 1, 7 + 1))
        self.assertIn("23 more sources", [attributes["label"] for attributes in nodes.values()])
        nodes, edges = self.graph(self.told([*commands, "file h29 2"]), "t")
        self.assertEqual(self.bold(edges), {("h29", "t")})

    def test_ring(self) -> None:
        commands = [
            "lock a",
            "lock b",
            "start a",
            "done a 1",
            "start b",
            "ifchange b a",
            "stamp b -",
            "done b 1",
            "start a",
            "ifchange a b",
            "stamp a -",
            "done a 1",
            "start b",
            "ifchange b a",
            "stamp b -",
            "done b 1",
        ]
        nodes, edges = self.graph(self.told(commands), "a")
        self.assertEqual((set(nodes), set(edges)), ({"a", "b"}, {("a", "b"), ("b", "a")}))

    def test_odd_names(self) -> None:
        name = 'a"b\\n\\c{}<>;'
        nodes, edges = self.graph(
            self.told(
                [
                    "file x 1",
                    f"lock {name}",
                    f"start {name}",
                    f"ifchange {name} x",
                    f"done {name} 1",
                ]
            ),
            name,
        )
        self.assertEqual((set(nodes), set(edges)), ({name, "x"}, {("x", name)}))

    def test_log_that_begins_with_a_state(self) -> None:
        log = self.history(f"{STATE}1 lock a => granted 8\n1 start a => ok\n")
        self.assert_fault(f"{log}: it begins with a state", "graph", log, "a")

    def test_build_that_is_under_way_in_a_log(self) -> None:
        log = self.history("redodb-log 1\n1 lock a => granted 1\n1 start a => ok\n")
        nodes, _ = self.graph(log, "a")
        self.assertEqual((nodes["a"]["label"], nodes["a"]["peripheries"]), (r"a\nbuilding", "2"))

    def test_faults(self) -> None:
        history = self.history()
        self.assert_fault("nobody: no target", "graph", history, "nobody")
        self.assert_fault("util.h: no target", "graph", history, "util.h")
        self.history(HISTORY.replace("busy 1", "busy 2"))
        self.assert_fault(
            f"{history}: line 5 differs: 2 lock a.o => busy 1", "graph", history, "app"
        )

    @unittest.skipUnless(shutil.which("dot"), "wants dot")
    def test_dot_draws_it(self) -> None:
        run = subprocess.run(
            ["dot", "-Tsvg"],
            input=self.drawn("graph", self.history(), "app"),
            capture_output=True,
            text=True,
            check=False,
        )
        self.assertEqual((run.returncode, run.stderr), (0, ""))
        titles = {title.text for title in ET.fromstring(run.stdout).iter(SVG + "title")}
        self.assertLessEqual({"app", "a.o", "a.o->app"}, titles)


class PicturesOfTheDocs(unittest.TestCase):
    """The pictures of docs/TOOLS.md are those of the log beside them."""

    LOG = str(PICTURES / "log")

    def test_run(self) -> None:
        wanted = PICTURES.joinpath("run.svg").read_text()
        self.assertEqual(picture("run", self.LOG), (0, wanted, ""))

    @unittest.skipUnless(program_answers(), "wants redodb-live")
    def test_graph(self) -> None:
        nodes, edges = parsed(picture("graph", self.LOG, "app")[1])
        titles = {
            title.text for title in ET.parse(PICTURES / "graph.svg").iter(SVG + "title")
        } - {"redodb"}
        self.assertEqual(titles, {*nodes, *(f"{below}->{above}" for below, above in edges)})
        bold = {edge for edge, attributes in edges.items() if "bold" in attributes.get("style", "")}
        self.assertEqual(bold, {("main.o", "app"), ("util.h", "main.o")})


STATEMENT = re.compile(
    r'    (?P<first>\w+|"(?:[^"\\]|\\.)*")(?: -> (?P<second>"(?:[^"\\]|\\.)*"))?'
    r"(?: \[(?P<attributes>.*)\])?;"
)
ATTRIBUTE = re.compile(r'(\w+)=("(?:[^"\\]|\\.)*"|[\w.]+)(?:, )?')


def parsed(text: str) -> tuple[dict[str, dict[str, str]], dict[tuple[str, str], dict[str, str]]]:
    """Return the nodes and edges of a text for dot, one statement a line, with their attributes."""
    first, *lines, last = text.splitlines()
    assert (first, last) == ("digraph redodb {", "}"), text
    nodes: dict[str, dict[str, str]] = {}
    edges: dict[tuple[str, str], dict[str, str]] = {}
    for line in lines:
        if line == "    rankdir=LR;":
            continue
        found = STATEMENT.fullmatch(line)
        assert found, line
        rest = ATTRIBUTE.sub("", found["attributes"] or "")
        assert rest == "", line
        attributes = {
            key: unquoted(value) for key, value in ATTRIBUTE.findall(found["attributes"] or "")
        }
        if found["second"]:
            edges[unquoted(found["first"]), unquoted(found["second"])] = attributes
        elif found["first"] not in ("node", "edge"):
            assert unquoted(found["first"]) not in nodes, line
            nodes[unquoted(found["first"])] = attributes
    return nodes, edges


def unquoted(word: str) -> str:
    """Return what a word of dot stands for; of a label, `\\n` is left."""
    return word[1:-1].replace("\\\\", "\\").replace('\\"', '"') if word.startswith('"') else word


if __name__ == "__main__":
    unittest.main()
