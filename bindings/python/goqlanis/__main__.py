"""Makes and grades exams for readers of QR codes.

    python3 -m goqlanis exam [--seed N] [--pairs 1-L,M2-L,micro] [--scale N] FOLDER
    python3 -m goqlanis grade FOLDER/answers.jsonl RESULTS

`exam` writes PNG files, and answers.jsonl, which says what is in each. A line of RESULTS has the
name of a picture that your reader read, a tab, and its data in hex.
"""
import argparse
import json
import os
import re
import sys
from collections import Counter
from typing import Dict, Iterator, List, Tuple

from . import _files
from .errors import Error
from .exams import PAIRS, Question, of_pairs

OUTCOMES = "right", "not read", "missed", "wrong"


def write_exam(folder: str, pairs: str, seed: int, scale: int) -> None:
    """Writes the pictures of an exam, and last its answers."""
    answers = os.path.join(folder, "answers.jsonl")
    os.makedirs(folder, exist_ok=True)
    if os.path.exists(answers):
        sys.exit(f"goqlanis: {folder} has an exam: name another folder")
    lines = []
    for it in of_pairs(list(_pairs(pairs)), seed):
        it.symbol.save(os.path.join(folder, f"{it.name}.png"), scale=scale)
        lines.append(json.dumps(_answer(it)) + "\n")
    _files.write(answers, "".join(lines).encode(), True)


def _pairs(words: str) -> Iterator[Tuple[str, str]]:
    for word in words.lower().split(","):
        found = [it for it in PAIRS if word.strip() in (
            "-".join(it).lower(), "micro" if it[0][0] == "M" else "normal")]
        if not found:
            sys.exit(f"goqlanis: --pairs {word}: take e.g. 1-L,40-H,M2-L, normal or micro")
        yield from found


def _answer(asked: Question) -> Dict[str, object]:
    """Returns the answer of a question; `text` is its data in UTF-8."""
    version, level, content, damage = asked.name.split("-")
    text = asked.data.decode("shift_jis" if content == "kanji" else "utf-8")
    return {"name": f"{asked.name}.png", "must_read": asked.must_read,
            "goqlanis_reads": asked.goqlanis_reads, "bytes": asked.data.hex(),
            "text": text.encode().hex(), "version": version, "level": level,
            "mask": asked.symbol.mask, "content": content, "damage": damage}


def grade(answers: str, results: str) -> bool:
    """Prints how many results are right, by content and damage, and the names of pictures that were
    read as something else, or not read although they must be; returns whether there are none."""
    exam = {it["name"]: it for it in map(json.loads, _lines(answers))}
    if not exam:
        sys.exit(f"goqlanis: {answers}: it has no answers; name the answers.jsonl of an exam")
    found: Dict[str, List[str]] = {name: [] for name in exam}
    for number, line in enumerate(_lines(results), 1):
        name, _, data = line.partition("\t")
        name, data = name.rpartition("/")[2], data.strip().lower()
        if line and (name not in exam or not re.fullmatch("([0-9a-f]{2})*", data)):
            why = "no picture of the exam" if name not in exam else "what was read is not hex"
            sys.exit(f"goqlanis: {results}: line {number}: {name!r}: {why}")
        if line:
            found[name].append(data)
    graded = {name: _outcome(it, found[name]) for name, it in exam.items()}
    kinds = Counter((f"{it['content']} {it['damage']}", graded[name]) for name, it in exam.items())
    print(f"{'':20}" + "".join(f"{it:>9}" for it in OUTCOMES))
    for kind in dict.fromkeys(it for it, _ in kinds):
        print(f"{kind:20}" + "".join(f"{kinds[kind, it]:9}" for it in OUTCOMES))
    failed = [f"{it}: {name}" for name, it in graded.items() if it in OUTCOMES[2:]]
    print(*failed, sep="\n", end="\n" if failed else "")
    return not failed


def _lines(path: str) -> List[str]:
    try:
        with open(path, encoding="utf-8") as file:
            return file.read().splitlines()
    except (OSError, UnicodeDecodeError) as error:
        sys.exit(f"goqlanis: cannot read {path}: {error}")


def _outcome(answer: Dict[str, object], read: List[str]) -> str:
    """Returns what a reader made of a picture, all that it read of which is given."""
    if any(it not in (answer["bytes"], answer["text"]) for it in read):
        return "wrong"
    return "right" if read else "missed" if answer["must_read"] else "not read"


def main() -> int:
    parser = argparse.ArgumentParser("python3 -m goqlanis", description=__doc__.partition("\n")[0])
    tasks = parser.add_subparsers(dest="task", required=True)
    exam, grading = tasks.add_parser("exam"), tasks.add_parser("grade")
    exam.add_argument("--seed", type=int, default=0)
    exam.add_argument("--pairs", default="micro,normal")
    exam.add_argument("--scale", type=int, default=8)
    exam.add_argument("folder")
    grading.add_argument("answers")
    grading.add_argument("results")
    given = parser.parse_args()
    if given.task == "grade":
        return 0 if grade(given.answers, given.results) else 1
    try:
        write_exam(given.folder, given.pairs, given.seed, given.scale)
    except (Error, OSError) as error:
        sys.exit(f"goqlanis: {error}")
    return 0


if __name__ == "__main__":
    sys.exit(main())
