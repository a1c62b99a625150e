"""A source file as tokens, and how to find, delete and replace them."""
import re

TOKEN = re.compile(r"""
    (?P<space>\s+)
  | (?P<comment>//[^\n]*)
  | (?P<string>[bc]?r(?P<hashes>\#*)".*?"(?P=hashes) | [bc]?"(?:\\.|[^"\\])*")
  | (?P<char>b?'(?:\\(?:x[0-9a-fA-F]{2}|u\{[0-9a-fA-F_]+\}|.)|[^\\'\n])')
  | (?P<label>'[A-Za-z_]\w*)
  | (?P<number>[0-9]\w*(?:\.[0-9]\w*)?)
  | (?P<word>(?:r\#)?[A-Za-z_]\w*)
  | (?P<sign>::|->|=>|\.\.=|\.\.|[!-/:-@\[-`{-~])
""", re.X | re.S | re.A)
CLAUSE = re.compile(r"(requires|ensures)(?:\s+\w+)?\s*(?=\{)", re.A)
GHOST_USE = re.compile(r"ghost\s+use\s[^;]*;")
GHOST = re.compile(r"ghost\s+\w+\s*(?=[:=])", re.A)
OPEN, CLOSE = dict(zip("([{", ")]}")), dict(zip(")]}", "([{"))


class Refused(Exception):
    """A form that the eraser does not know, with its file and line."""


class Token:
    def __init__(self, kind, text, line):
        self.kind, self.text, self.line, self.is_new = kind, text, line, False

    def is_code(self):
        return self.kind not in ("space", "comment")


def braces_end(text, at):
    """The end of the braces that begin at `at`. In a clause nothing but braces counts: it is no Rust."""
    depth = 0
    for end in range(at, len(text)):
        depth += (text[end] == "{") - (text[end] == "}")
        if depth == 0:
            return end + 1
    return None


def clause_end(text, at):
    """The kind and the end of the ghost item or clause that begins at `at`, or None."""
    if found := GHOST_USE.match(text, at):
        return "ghost use", found.end()
    if found := CLAUSE.match(text, at):
        return found.group(1), braces_end(text, found.end())
    if found := GHOST.match(text, at):
        end = found.end()
        while end is not None and (part := re.compile(r"\s*[:=]\s*(?=\{)").match(text, end)):
            end = braces_end(text, part.end())
        if end is not None and end > found.end():
            return "ghost", re.compile(r"\s*[,;]|").match(text, end).end()
    return None


def written(paths, visibility=""):
    """The imports of one `use`, those of one module in one list."""
    modules = {}
    for path in paths:
        module, _, name = path.rpartition("::")
        if name.startswith("self"):
            module, _, name = module.rpartition("::")
        modules.setdefault(module, []).append(name)
    lines = [f"use {module}::{names[0]};" if len(names) == 1 else f"use {module}::{{{', '.join(names)}}};"
             for module, names in modules.items()]
    return "\n".join(visibility + line.replace("use ::", "use ") for line in lines)


class Source:
    def __init__(self, path, text):
        self.path = path
        self.tokens = self.lex(text)

    def refuse(self, line, why):
        raise Refused(f"{self.path}:{line}: {why}")

    def lex(self, text):
        """The tokens of a text. A clause and a ghost item are one token each."""
        tokens, at, line = [], 0, 1
        while at < len(text):
            found = TOKEN.match(text, at)
            if not found or found.group().startswith("/*") or text.startswith("/*", at):
                self.refuse(line, f"Rust has no sign {text[at]!r}, or the eraser reads no such comment or text")
            kind, end = found.lastgroup, found.end()
            if kind == "word" and found.group() in ("ghost", "requires", "ensures"):
                clause = clause_end(text, at)
                if not clause or clause[1] is None:
                    self.refuse(line, f"a form of `{found.group()}` that the eraser does not know")
                kind, end = clause
                if re.search(r'"|//|\n\s*(?:fn|let|use|impl|struct)\s', text[at:end]):
                    self.refuse(line, f"`{found.group()}` with a text, a comment or code in it: where it ends is not clear")
            tokens.append(Token(kind, text[at:end], line))
            line += text.count("\n", at, end)
            at = end
        return tokens

    def text(self):
        return "".join(token.text for token in self.tokens)

    def has_items(self):
        """Whether there is anything but attributes."""
        at = self.near(-1, 1)
        while at is not None and self.tokens[at].text == "#" and self.is_at(at, 1, "!"):
            at = self.near(self.close(self.find(at, "[")), 1)
        return at is not None

    def words(self):
        """All words of the code, and those that texts print by `{name}`."""
        words = {token.text for token in self.tokens if token.kind == "word"}
        for token in self.tokens:
            if token.kind == "string":
                words.update(re.findall(r"\{(\w+)", token.text))
        return words

    def near(self, at, step):
        """The index of the next token of code in a direction, or None."""
        at += step
        while 0 <= at < len(self.tokens):
            if self.tokens[at].is_code():
                return at
            at += step
        return None

    def is_at(self, at, step, *texts):
        """Whether the next tokens of code in a direction are these."""
        for text in texts:
            at = self.near(at, step)
            if at is None or self.tokens[at].text != text:
                return False
        return True

    def close(self, at):
        """The index of the bracket that closes the one at `at`."""
        depth = 0
        for end in range(at, len(self.tokens)):
            if self.tokens[end].kind == "sign":
                depth += (self.tokens[end].text in OPEN) - (self.tokens[end].text in CLOSE)
            if depth == 0:
                return end
        self.refuse(self.tokens[at].line, "a bracket that nothing closes")

    def find(self, at, *texts):
        """The index of the first token at or behind `at`, outside of brackets, with one of these texts."""
        while at is not None and at < len(self.tokens):
            token = self.tokens[at]
            if token.text in texts and token.kind in ("sign", "word"):
                return at
            at = self.close(at) + 1 if token.kind == "sign" and token.text in OPEN else at + 1
        return None

    def delete(self, start, end, with_comments=True):
        """Deletes tokens, with the comments directly above them. Of the white space around them the larger part stays."""
        tokens = self.tokens
        if end + 1 < len(tokens) and tokens[end + 1].kind == "comment" and "\n" not in tokens[end].text:
            self.refuse(tokens[end + 1].line, "a comment behind what is erased")
        while with_comments and start > 2 and tokens[start - 1].text.count("\n") == 1 and tokens[start - 2].kind == "comment" \
                and "\n" in tokens[start - 3].text and not tokens[start - 2].text.startswith("//!"):
            start -= 2
        around = [tokens[at] for at in (start - 1, end) if 0 <= at < len(tokens) and tokens[at].kind == "space"]
        start -= start > 0 and tokens[start - 1].kind == "space"
        end += end < len(tokens) and tokens[end].kind == "space"
        tokens[start:end] = [max(around, key=lambda space: space.text.count("\n"), default=Token("space", " ", 0))]

    def match(self, at, pattern):
        """The end of a pattern at `at` and the tokens that its `$names` stand for, or None."""
        parts, names = [token for token in pattern if token.is_code()], {}
        here = at
        for index, part in enumerate(parts):
            if part.kind == "word" and index and parts[index - 1].text == "$":
                until = parts[index + 1].text
                end = self.find(here, until, ")", "]", "}", ";")
                if end is None or self.tokens[end].text != until or end == here:
                    return None
                names[part.text] = self.tokens[here:end]
                here = end
            elif part.text != "$":
                if here is None or here >= len(self.tokens) or self.tokens[here].text != part.text:
                    return None
                last = here
                here = self.near(here, 1)
        return last + 1, names

    def replace(self, pattern, by):
        """Replaces each occurrence of a pattern, the inner ones first, and returns their number."""
        pattern, by, count = self.lex(pattern), self.lex(by), 0
        for at in range(len(self.tokens) - 1, -1, -1):
            if self.tokens[at].text == pattern[0].text and (found := self.match(at, pattern)):
                new = []
                for token in by:
                    if new and new[-1].text == "$" and token.kind == "word":
                        new[-1:] = found[1][token.text]
                    else:
                        new.append(Token(token.kind, token.text, self.tokens[at].line))
                        new[-1].is_new = True
                self.tokens[at:found[0]] = new
                count += 1
        return count
