"""A report about a catalogue of 1,000,000 rows, made the same each time: it takes at most 10 s of a processor, and its numbers are those
of the program's answers. The commands canon and show beside the program. Arguments: a registry, the program, and a folder for the catalogue."""
import itertools
import resource
import subprocess
import sys
import unittest
from collections import Counter
from pathlib import Path
from xml.etree import ElementTree

from command import COMMAND

sys.path.insert(0, str(Path(__file__).resolve().parents[3] / "bench"))
from make_tags import NewTags, Tags, read_registry

ROWS, MOST_SECONDS = 1_000_000, 10


def made():
    """The tags: 400 by Zipf's law, and each fiftieth one of 20,000 others."""
    names = read_registry(REGISTRY)
    often, once = Tags(*names).catalogue(), NewTags(*names).new()
    return [next(often if number % 50 else once) for number in range(ROWS)]


def answers_to(texts):
    """What the program answers to each text."""
    said = subprocess.run([PROGRAM, "canon", REGISTRY], input="".join(text + "\n" for text in texts), text=True, stdout=subprocess.PIPE)
    lines = said.stdout.splitlines()
    assert said.returncode == 1 and len(lines) == len(texts), said.returncode
    return dict(zip(texts, lines))


class Catalogue(unittest.TestCase):
    def test_numbers(self):
        tags = made()
        path = Path(FOLDER, "catalogue.csv")
        with open(path, "w", encoding="utf-8", newline="") as file:
            file.write("id,title,tag,year\r\n")
            file.writelines(f'{number},"The title, volume {number % 977}",{tag},{1900 + number % 125}\r\n' for number, tag in enumerate(tags))
        before = resource.getrusage(resource.RUSAGE_CHILDREN)
        with open(path, "rb") as file:
            done = subprocess.run([*COMMAND, "report", REGISTRY, "tag"], stdin=file, stdout=subprocess.PIPE, check=True)
        after = resource.getrusage(resource.RUSAGE_CHILDREN)
        path.unlink()
        taken = after.ru_utime + after.ru_stime - before.ru_utime - before.ru_stime
        print(f"Python: a report about {ROWS:,} rows in {taken:.1f} s of a processor")
        self.assertLessEqual(taken, MOST_SECONDS)

        root = ElementTree.fromstring(done.stdout)
        tables = {table.find("caption").text: [["".join(cell.itertext()) for cell in row] for row in table.iter("tr")][1:]
                  for table in root.iter("table")}
        rows = Counter(tags)
        answers = answers_to(list(rows))
        kinds = {text: "refused" if answer.startswith("! ") else "stays" if answer == text else "made canonical"
                 for text, answer in answers.items()}
        wanted = []
        for kind in ("stays", "made canonical", "refused"):
            texts = [text for text in rows if kinds[text] == kind]
            self.assertGreater(len(texts), 10)
            wanted.append([f"The tag {'is ' * (kind != 'stays')}{kind}", f"{sum(map(rows.get, texts)):,}", f"{len(texts):,}"])
        wanted.append(["All rows read", f"{ROWS:,}", f"{len(rows):,}"])
        self.assertEqual(tables["What became of the rows below the heading"], wanted)

        canonical, faults = Counter(), Counter()
        for text, count in rows.items():
            if kinds[text] == "refused":
                faults[answers[text].split()[1]] += count
            else:
                canonical[answers[text]] += count
        distinct = sum(kind != "refused" for kind in kinds.values())
        self.assertIn(f"Distinct tags that are not refused: {distinct:,} before, {len(canonical):,} after.",
                      ["".join(it.itertext()) for it in root.iter("p")])
        self.assertEqual([row[1] for row in tables["Canonical tags by the rows that have them, with a bar for each"]],
                         [f"{count:,}" for _, count in canonical.most_common(50)])
        self.assertEqual({(row[0], row[1]) for row in tables["Rows that are refused, by the fault"]},
                         {(name, f"{count:,}") for name, count in faults.items()})


    def test_commands(self):
        """The commands canon and show print what the program prints."""
        texts = [*itertools.islice(NewTags(*read_registry(REGISTRY)).new(), 5000)]
        for words, lines in ((["canon", REGISTRY], texts), (["show", REGISTRY, *texts[:300]], [])):
            given = "".join(text + "\n" for text in lines).encode()
            printed = [subprocess.run([*command, *words], input=given, stdout=subprocess.PIPE) for command in (COMMAND, [PROGRAM])]
            self.assertEqual(printed[0].stdout, printed[1].stdout)
            self.assertEqual([it.returncode for it in printed], [1, 1])


REGISTRY, PROGRAM, FOLDER = sys.argv[1:4]
if __name__ == "__main__":
    unittest.main(argv=sys.argv[:1])
