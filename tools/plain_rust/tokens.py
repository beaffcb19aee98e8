"""The tokens of a file of Rattle or Rust."""

OPENING = {"{": "}", "(": ")", "[": "]"}
CLOSING = set(OPENING.values())


class Refused(Exception):
    """A form that isn't known, and the line where it stands."""

    def __init__(self, line, why):
        super().__init__(why)
        self.line = line


class Token:
    """A token, with the blanks and comments before it in `lead`."""

    __slots__ = ("lead", "text", "kind", "line")

    def __init__(self, lead, text, kind, line=0):
        self.lead, self.text, self.kind, self.line = lead, text, kind, line

    def __repr__(self):
        return self.text


def is_word(char):
    return char.isalnum() or char == "_"


def end_of_comment(text, at, line):
    """The index after the comment in `/* .. */` that begins at `at`."""
    depth = 0
    while at < len(text):
        if text.startswith("/*", at):
            depth, at = depth + 1, at + 2
        elif text.startswith("*/", at):
            depth, at = depth - 1, at + 2
            if depth == 0:
                return at
        else:
            at += 1
    raise Refused(line, "a comment without an end")


def end_of_string(text, at, line):
    """The index after the string whose quote stands at `at`."""
    at += 1
    while at < len(text) and text[at] != '"':
        at += 2 if text[at] == "\\" else 1
    if at >= len(text):
        raise Refused(line, "a string without an end")
    return at + 1


def end_of_quote(text, at):
    """The kind of what begins with the quote at `at`, and the index after it."""
    if text[at + 1 : at + 2] == "\\":
        return "char", text.index("'", at + 3) + 1
    if text[at + 2 : at + 3] == "'":
        return "char", at + 3
    at += 1
    while at < len(text) and is_word(text[at]):
        at += 1
    return "life", at


def end_of_word(text, at):
    """The index after a word, which may end with the primes of a ghost name."""
    while at < len(text) and is_word(text[at]):
        at += 1
    while at < len(text) and text[at] == "'":
        at += 1
    return at


def tokenized(text):
    """The tokens of a text. The last one is empty and has what stands after the others as its lead."""
    tokens, at, after, line = [], 0, 0, 1
    while at < len(text):
        char = text[at]
        if char.isspace():
            line += char == "\n"
            at += 1
            continue
        if text.startswith("//", at):
            at = text.find("\n", at) if "\n" in text[at:] else len(text)
            continue
        if text.startswith("/*", at):
            end = end_of_comment(text, at, line)
            line += text.count("\n", at, end)
            at = end
            continue
        if char == '"' or text.startswith('b"', at):
            kind, end = "str", end_of_string(text, at + (char == "b"), line)
        elif char == "'":
            kind, end = end_of_quote(text, at)
        elif is_word(char):
            kind, end = "word", end_of_word(text, at)
        else:
            kind, end = "punct", at + 1
        tokens.append(Token(text[after:at], text[at:end], kind, line))
        line += text.count("\n", at, end)
        at = after = end
    tokens.append(Token(text[after:], "", "end", line))
    return tokens


def new_tokens(text, lead, line):
    """The tokens of a text that is put in at a line, the first with this lead."""
    put = tokenized(text)[:-1]
    for token in put:
        token.line = line
    if put:
        put[0].lead = lead
    return put


def text_of(tokens):
    return "".join(token.lead + token.text for token in tokens)


def closing(tokens, at):
    """The index of what closes the bracket at `at`."""
    wanted, i = [OPENING[tokens[at].text]], at
    while wanted:
        i += 1
        text = tokens[i].text
        if tokens[i].kind == "end":
            raise Refused(tokens[at].line, f"nothing closes this {tokens[at].text}")
        if text in OPENING:
            wanted.append(OPENING[text])
        elif text in CLOSING and text != wanted.pop():
            raise Refused(tokens[i].line, f"a {text} that closes nothing")
    return i


def closing_angle(tokens, at):
    """The index of the `>` that closes the `<` at `at`."""
    depth = 0
    for i in range(at, len(tokens)):
        if tokens[i].text == "<":
            depth += 1
        elif tokens[i].text == ">" and tokens[i - 1].text not in ("-", "="):
            depth -= 1
            if depth == 0:
                return i
    raise Refused(tokens[at].line, "nothing closes this <")


def stands(tokens, at, *texts):
    """Whether these texts stand at `at`."""
    return all(0 <= at + k < len(tokens) and tokens[at + k].text == text for k, text in enumerate(texts))


def skipped(tokens, at, stops):
    """The index of the first of `stops` from `at` on that lies in no bracket."""
    while tokens[at].text not in stops:
        if tokens[at].kind == "end" or tokens[at].text in CLOSING:
            raise Refused(tokens[at].line, f"none of {' '.join(sorted(stops))} where one belongs")
        at = closing(tokens, at) + 1 if tokens[at].text in OPENING else at + 1
    return at


def cut(tokens, start, end):
    """Removes the tokens from `start` up to `end`, with the comments before them."""
    del tokens[start:end]
