"""The forms that 01 names: docs/DECISIONS.md tells which function and type carries each, and the sources must have them so."""

import os
import re
import unittest

ROOT = os.path.dirname(os.path.dirname(os.path.dirname(os.path.abspath(__file__))))
CRATES = os.path.join(ROOT, "crates")
PAGE = os.path.join(ROOT, "docs", "DECISIONS.md")

# Whatever has one of these names counts ticks, and is `Ticks` where it is 32 bits wide; so is the n of a stretch.
TICKS = ("ticks", "left", "wait", "period")


def plain(text: str) -> str:
    """The text without line breaks, trailing commas and doubled blanks."""
    text = re.sub(r"\s+", " ", text)
    text = re.sub(r",? (?=[)\]])", "", text)
    return re.sub(r"(?<=[(\[]) ", "", text).replace(",)", ")").strip()


def without_comments(text: str) -> str:
    return re.sub(r"//[^\n]*", "", text)


def sources(crate: str) -> str:
    """All of a crate's code."""
    found = []
    for folder, _, names in sorted(os.walk(os.path.join(CRATES, crate, "src"))):
        for name in sorted(names):
            with open(os.path.join(folder, name), encoding="utf-8") as file:
                found.append(without_comments(file.read()))
    return "\n".join(found)


def module(crate: str, path: list[str]) -> str:
    """The code of a module, or of the whole crate where none is named."""
    if not path:
        return sources(crate)
    with open(os.path.join(CRATES, crate, "src", *path) + ".rt", encoding="utf-8") as file:
        return without_comments(file.read())


def rows() -> list[list[str]]:
    """The cells of the table of forms, a list for each row."""
    with open(PAGE, encoding="utf-8") as file:
        part = file.read().split("## Forms that 01 names\n", 1)[1].split("\n## ", 1)[0]
    lines = [line for line in part.splitlines() if line.startswith("| ")]
    return [[cell.strip() for cell in line.strip("|").split(" | ")] for line in lines[1:]]


def functions(text: str) -> list[tuple[str, str]]:
    """Each function of some code: its signature up to a contract or the body, and its text up to the next function."""
    found = []
    for one in re.split(r"\n(?=(?:pub )?(?:extern \"C\" )?fn )", "\n" + text)[1:]:
        signature = re.split(r"\n\s*(?:requires|ensures)\b|\s*\{\s*\n", one, maxsplit=1)[0]
        found.append((plain(signature), plain(one)))
    return found


class Forms(unittest.TestCase):
    def function(self, code: str, name: str, rest: str) -> str:
        """The text of the function with that signature; it fails where there is none."""
        for signature, text in functions(code):
            if re.sub(r"<'\w+>", "", signature).endswith(f"fn {name}{rest}"):
                return text
        self.fail(f"no function `{name}{rest}`")

    def check(self, span: str, within: str) -> str:
        """Holds one piece of code of the table against the sources, and returns the text of the function that it names."""
        if re.match(r"let |&", span):
            self.assertIn(plain(span), within)
            return within
        path = re.match(r"(\w+)((?:::\w+)*)::(\w+)(.*)$", span)
        self.assertIsNotNone(path, f"`{span}` names no crate")
        crate, between, name, rest = path.groups()
        code = module(crate, between.split("::")[1:])
        if rest.startswith("(pub "):
            self.assertIn(f"pub struct {name}{rest};", plain(code))
        elif rest.startswith("("):
            return self.function(code, name, plain(rest))
        elif rest.startswith(": "):
            self.assertIn(f"const {name}{rest} =", plain(code))
        else:
            body = re.search(rf"pub (?:struct|enum) {name} \{{(.*?)\n\}}", code, re.S)
            self.assertIsNotNone(body, f"no type `{name}`")
            for part in re.findall(r"\w+(?:: [^,}]+|\([^)]*\))", rest.strip(" {}")):
                self.assertIn(part.strip(), plain(body.group(1)))
        return ""

    def test_table(self) -> None:
        table = rows()
        self.assertGreaterEqual(len(table), 8)
        for cells in table:
            spans = re.findall(r"`([^`]+)`", cells[-1])
            self.assertTrue(spans, cells[0])
            within = ""
            for span in spans:
                with self.subTest(place=cells[0], form=span):
                    within = self.check(span, within)

    def test_every_frame_is_decoded(self) -> None:
        """No code but that of frames looks at the first byte of a frame, so that every way to a transaction decodes it. How long the output
        buffer of a line `bus` is goes by that byte, in the words of the item format (`frame_size`), and tells nothing of the transaction."""
        for crate in sorted(os.listdir(CRATES)):
            if crate != "frame":
                code = re.sub(r"fn frame_size\(.*?\n}\n", "", sources(crate), flags=re.S)
                with self.subTest(crate=crate):
                    self.assertNotRegex(code, r"\bframes?\[(?:0|at|start|place\.frames)\]")

    def test_ticks(self) -> None:
        name = "|".join(TICKS)
        for crate in sorted(os.listdir(CRATES)):
            code = sources(crate)
            with self.subTest(crate=crate):
                self.assertNotRegex(code, rf"\b(?:{name}): u32\b")
                for signature, _ in functions(code):
                    if "stretch" in signature and 'extern "C"' not in signature:
                        self.assertNotRegex(signature, r"\bn: u32\b")


if __name__ == "__main__":
    unittest.main()
