"""The statements of README.md, each with its answer: what stands in comments after it, a line for each row."""
import re
from pathlib import Path

README = Path(__file__).resolve().parents[1] / "README.md"


def examples_of_readme():
    found = []
    for block in re.findall(r"^```sql\n(.*?)^```", README.read_text(), re.M | re.S):
        for query, answer in re.findall(r"(^(?:SELECT|CREATE).*?;)\n((?:-- [^\n]*\n)*)", block, re.M | re.S):
            found.append((query, [line.removeprefix("-- ") for line in answer.splitlines()]))
    return found
