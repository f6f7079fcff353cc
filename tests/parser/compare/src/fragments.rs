//! Fragments of Markdown, made of pieces and of changed texts; the same ones at each run.

#[rustfmt::skip]
const PIECES: &[&str] = &[
    " ", "  ", "   ", "    ", "\t", "\n", "\n\n", "\r\n", "\r", "> ", ">", "- ", "-", "* ", "+ ", "1. ", "2) ", "10. ",
    "1234567890. ", "***", "---", "- - -", "===", "# ", "## ", "####### ", "```", "~~~", "```rust\n", "|", "| a | b |\n",
    "|---|:-:|\n", "a|b\n-|-\n", "[", "]", "[a]", "[a]: ", "[a][b]", "[A  b]", "[^1]", "[^1]: ", "(", ")", "(/u)",
    "](<u v>)", "](u(v)w)", "\"t\"", "'t'", "<", ">", "<a>", "</a>", "<a b=\"c\" d>", "<div>", "<search>", "<source>",
    "<!--", "-->", "<!-->", "<!--->", "<!-- a -- b -->", "<![CDATA[", "]]>", "]>", "<?", "?>", "<!A b>", "<!a>",
    "<http://x.y/z>", "<a@b.c>", "<@b.c>", "<ab:>", "&amp;", "&copy;", "&#35;", "&#x22;", "&#0;", "&#xFFFFFF;",
    "&#12345678;", "&x;", "\\", "\\\\", "\\[", "\\]", "\\|", "\\<", "\\&", "*", "**", "_", "`", "``", "~~", "!", "![",
    "{#id .c}", "[x] ", "[ ] ", "- [x]\t", "a", "b c", "é", "ß", "ẞ", "ss", "—", "\u{a0}", "\0", "\u{b}", "\u{c}", "word",
    "a\u{301}", "1", "x=1", "foo@bar", "```\t\n", "~~~ \t", "```\n", "</a\n>", "</a >", "<a\nb>", "<a\n> b>", "<a b='\n'",
    "<a b=\"c\n", "<\\!--", "<\\?", "<!--\n-->", "<?\n", "-\u{b}", "-\u{b}\n", "1)\u{c}\n", "\t> ", "-\t", "1.\t", "[a\n",
    "\nb]: /u", "[\n> a]", "=\"", "/>", "]]]>", "<![CDATA[a]", "--", "&#", ";", "&", "&lt", "&ngE;", "&notit;", "(((",
    ")))", "<http:", "<a:b c>", "::", ":-", "|:-", "-:|\n", "|-\t|\n", "+", "+\n", "[ a ]", "[a ]: b\n", "[ß]: b\n[ss]",
    "[\u{1e9e}]: b\n[SS]", "[\u{a7c0}]: b\n[\u{a7c1}]", "[a](b\\\\|c)",
    "```b\\\\|c\n", "[a]: b\\\\|c\n\n[a]", "[a]: b \"c\n", "[a]: b 'c\\\n", "[a]: b\n(c", "d\"\n", "d'\n", "d)\n\n[a]", "\r\n\r\n",
    "(c(", "\u{120}\n",
];
/// How many of them may stand before a line.
const MARKERS: usize = 32;

/// Makes one fragment after another.
pub struct Maker<'texts> {
    texts: Vec<&'texts str>,
    state: u64,
}

impl<'texts> Maker<'texts> {
    pub fn new(texts: Vec<&'texts str>) -> Self {
        Maker { texts, state: 0x9e37_79b9_7f4a_7c15 }
    }

    /// A number below the bound.
    fn below(&mut self, bound: usize) -> usize {
        self.state ^= self.state << 13;
        self.state ^= self.state >> 7;
        self.state ^= self.state << 17;
        (self.state >> 11) as usize % bound
    }

    fn piece(&mut self) -> &'static str {
        PIECES[self.below(PIECES.len())]
    }

    pub fn fragment(&mut self) -> String {
        if self.below(3) == 0 {
            let count = 1 + self.below(14);
            return (0..count).map(|_| self.piece()).collect();
        }
        let number = self.below(self.texts.len());
        let mut chars: Vec<char> = self.texts[number].chars().collect();
        for _ in 0..self.below(6) {
            self.change(&mut chars);
        }
        chars.into_iter().collect()
    }

    fn change(&mut self, chars: &mut Vec<char>) {
        let at = self.below(chars.len() + 1);
        match self.below(4) {
            0 => drop(chars.splice(at..at, self.piece().chars())),
            1 => drop(chars.drain(at..(at + 1 + self.below(4)).min(chars.len()))),
            2 => {
                let line = chars[..at].iter().rposition(|&it| it == '\n').map_or(0, |it| it + 1);
                drop(chars.splice(line..line, PIECES[self.below(MARKERS)].chars()));
            }
            _ if at < chars.len() => chars[at] = chars[self.below(chars.len())],
            _ => (),
        }
    }
}

/// A short part of the text on which it still holds: parts are dropped, ever shorter ones.
pub fn shrunk(text: &str, mut holds: impl FnMut(&str) -> bool) -> String {
    let mut best: Vec<char> = text.chars().collect();
    let mut size = (best.len() / 2).max(1);
    loop {
        let mut is_cut = false;
        let mut at = 0;
        while at < best.len() {
            let mut shorter = best.clone();
            shorter.drain(at..(at + size).min(best.len()));
            if holds(&shorter.iter().collect::<String>()) {
                best = shorter;
                is_cut = true;
            } else {
                at += size;
            }
        }
        if size == 1 && !is_cut {
            return best.into_iter().collect();
        }
        size = (size / 2).max(1);
    }
}
