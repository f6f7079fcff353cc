"""The pages that tests/html/beside compares and tests/html/browser reads. All are bytes."""
import random
import sys
from pathlib import Path

sys.dont_write_bytecode = True
sys.path.append(str(Path(__file__).resolve().parents[1] / "differential"))
from block_pages import BY_OLDER_RULES, LINES, ODD, ROWS, TASKS, made_paragraphs
from block_pages import made as made_blocks

# Without what is not UTF-8, which is not compared.
ODD_LINES = LINES + [text for text in ODD if max(text) < 0x80]
WITH_EXTENSIONS = [line for line in LINES if not BY_OLDER_RULES.match(line)] + 2 * ROWS + 2 * TASKS + [b"~a~ ~~b~~", b"~~c ~d~~", b"|~~e|~f~|"]


def made(seed, count):
    """So many pages of each sort, made by the seed: their name, the pages, and whether they are read with extensions."""
    return [
        ("pages of blocks", made_blocks(LINES, seed, count), False),
        ("pages with odd lines", made_blocks(ODD_LINES, seed, count), False),
        ("paragraphs", made_paragraphs(seed, count), False),
        ("pages with rows and tasks", made_blocks(WITH_EXTENSIONS, seed, count), True),
        ("paragraphs with extensions", made_paragraphs(seed + 1, count), True),
        ("pages of tokens", made_smuggled(seed, count), False),
        ("pages of tokens with extensions", made_smuggled(seed + 1, count), True),
    ]

# What pages are made of that try to smuggle a script.
TOKENS = [
    b"<", b"<", b">", b">", b'"', b'"', b"'", b"&", b";", b":", b"/", b"=", b" ", b" ", b"\n", b"\t", b"\x01", b"\\", b"`", b"*", b"_", b"~~", b"|", b"x",
    b"[a](", b"](", b")", b"![", b"[", b"]", b"[a]", b"\n\n[a]: ", b"\n```", b"\n|-|\n", b"\n\n|a|b|\n|-|:-:|\n|", b"\n- [x] ", b"\n> ", b"\n# ", b"\n    ",
    b"javascript", b"javascript:", b"JavaScript:", b"java", b"script:", b"data:text/html,", b"vbscript:", b"http://", b"https:", b"mailto:", b"//", b"a@b.c",
    b"onerror=", b' onerror="', b"onclick=", b"alert(1)", b"alert`1`", b"<script>", b"</script>", b"<img src=x ", b"<svg ", b"<math>", b"<style>", b"</p>",
    b"<a href=", b"<!--", b"-->", b"--!>", b"<![CDATA[", b"]]>", b"<?", b"?>", b"<!x", b"&colon;", b"&#58;", b"&#x6a;", b"&Tab;", b"&NewLine;", b"&quot;",
    b"&#34;", b"&lt;", b"&gt;", b"&amp;", b"&#0;", b"\xc2\xa0", b"\xef\xbb\xbf",
]


def made_smuggled(seed, count):
    """So many pages of such tokens, the same for a seed each time."""
    chosen = random.Random(seed)
    return [b"".join(chosen.choices(TOKENS, k=chosen.randint(2, 24))) for _ in range(count)]
