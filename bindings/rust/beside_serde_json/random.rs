//! Random JSON texts whose numbers and strings `serde_json` writes as `ijson-proved` does: no exponent, and no trailing zero in a fraction.

/// A generator of the same texts in each run (xorshift).
pub struct Random(u64);

impl Random {
    pub fn new(seed: u64) -> Random {
        Random(seed)
    }

    /// Returns a number below `end`.
    pub fn below(&mut self, end: usize) -> usize {
        self.0 ^= self.0 << 13;
        self.0 ^= self.0 >> 7;
        self.0 ^= self.0 << 17;
        (self.0 >> 11) as usize % end
    }

    pub fn one_of<'a>(&mut self, texts: &[&'a str]) -> &'a str {
        texts[self.below(texts.len())]
    }

    fn space(&mut self) -> &'static str {
        self.one_of(&["", "", "", " ", "\n", "\t\r"])
    }

    fn digits(&mut self) -> String {
        let count = 1 + self.below(24);
        let first = char::from(b'1' + self.below(9) as u8);
        let others = (1..count).map(|_| char::from(b'0' + self.below(10) as u8));
        std::iter::once(first).chain(others).collect()
    }

    fn number(&mut self) -> String {
        let sign = self.one_of(&["", "", "-"]);
        match self.below(4) {
            0 => "0".to_string(),
            1 => format!("{sign}{}", self.digits()),
            2 => format!("{sign}{}.{}5", self.digits(), self.digits()),
            _ => format!("{sign}0.{}{}1", "0".repeat(self.below(5)), self.digits()),
        }
    }

    /// Returns a key, which often comes again.
    fn key(&mut self) -> &'static str {
        self.one_of(&[
            "a",
            "b",
            "c",
            "a/b",
            "m~n",
            "",
            "0",
            "1",
            "é",
            "a key that is longer than a word",
            "\\u0061\\\"",
            "\\n",
        ])
    }

    fn string(&mut self) -> String {
        let parts = [
            "a",
            "é",
            "\\n",
            "\\\\",
            "\\u001f",
            "\\ud83d\\ude00",
            "\\/",
            "日本語",
            "\\u0000",
            "0123456789",
        ];
        (0..self.below(5)).map(|_| self.one_of(&parts)).collect()
    }

    /// Returns a text of a value that is nested at most `depth` deep.
    pub fn value(&mut self, depth: usize) -> String {
        let text = match self.below(if depth == 0 { 4 } else { 8 }) {
            0 => self.one_of(&["null", "true", "false"]).to_string(),
            1 | 2 => self.number(),
            3 => format!("\"{}\"", self.string()),
            4 | 5 => {
                let items: Vec<String> = (0..self.below(5)).map(|_| self.value(depth - 1)).collect();
                format!("[{}]", items.join(","))
            }
            _ => self.object(depth),
        };
        format!("{}{text}{}", self.space(), self.space())
    }

    /// Returns a text of an object.
    pub fn object(&mut self, depth: usize) -> String {
        let members: Vec<String> = (0..self.below(7)).map(|_| self.member(depth)).collect();
        format!("{{{}}}", members.join(","))
    }

    fn member(&mut self, depth: usize) -> String {
        let (before, after) = (self.space(), self.space());
        format!("{before}\"{}\"{after}:{}", self.key(), self.value(depth.saturating_sub(1)))
    }

    /// Returns a JSON Pointer of up to two tokens.
    pub fn pointer(&mut self) -> String {
        let tokens = ["a", "b", "c", "a~1b", "m~0n", "", "0", "1", "2", "01", "-", "é"];
        (0..self.below(3)).map(|_| format!("/{}", self.one_of(&tokens))).collect()
    }

    /// Returns the text with up to three bytes removed, replaced or repeated, if it still is UTF-8.
    pub fn changed(&mut self, text: &str) -> Option<String> {
        let mut bytes = text.as_bytes().to_vec();
        for _ in 0..=self.below(3) {
            if bytes.is_empty() {
                break;
            }
            let at = self.below(bytes.len());
            match self.below(3) {
                0 => drop(bytes.remove(at)),
                1 => bytes[at] = b"{}[],:\"0123456789.-+eE \\truenfals"[self.below(33)],
                _ => bytes.insert(at, bytes[at]),
            }
        }
        String::from_utf8(bytes).ok()
    }
}
