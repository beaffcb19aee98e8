"""The items of a file: what stands at its top, in an impl or in a trait."""

from plain_rust.tokens import Refused, closing, closing_angle, skipped, stands, text_of

KINDS = {"const", "enum", "fn", "impl", "mod", "struct", "trait", "type", "use"}
# Items that end with a semicolon, whatever brackets they have.
LINES = {"const", "mod", "type", "use"}


class Item:
    """An item: its tokens from `start` up to `end`, its visibility at `head`, its word at `word`, and its body if it has one."""

    def __init__(self, tokens, start):
        head = start
        while tokens[head].text == "#":
            head = closing(tokens, head + 1) + 1
        word = head
        if tokens[word].text == "pub":
            word = closing(tokens, word + 1) + 1 if tokens[word + 1].text == "(" else word + 1
        if stands(tokens, word, "const", "fn"):
            word += 1
        self.tokens, self.start, self.head, self.word = tokens, start, head, word
        self.kind = tokens[word].text
        if self.kind not in KINDS:
            raise Refused(tokens[word].line, f"an item that begins with {tokens[word].text or 'the end'}")
        stop = skipped(tokens, word + 1, {";"} if self.kind in LINES else {"{", ";"})
        self.body = stop if tokens[stop].text == "{" else None
        self.end = stop + 1 if self.body is None else closing(tokens, stop) + 1
        self.name = self.title() if self.kind == "impl" else tokens[word + 1].text

    def is_public(self):
        return stands(self.tokens, self.head, "pub") and self.tokens[self.head + 1].text != "("

    def is_exported(self):
        return self.tokens[self.head].text == "pub"

    def title(self):
        """What an impl is of, without generics: `Trait for Type` or `Type`."""
        trait, of = self.trait_and_type()
        short = [text.split("<")[0] for text in (trait, of) if text]
        return " for ".join(short)

    def trait_and_type(self):
        """The trait of an impl, or nothing, and its type, each with its generics."""
        at = self.word + 1
        if self.tokens[at].text == "<":
            at = closing_angle(self.tokens, at) + 1
        words, end = [], at
        while end < self.body and self.tokens[end].text not in ("for", "where"):
            end += 1
        words = text_of(self.tokens[at:end]).split()
        if self.tokens[end].text != "for":
            return "", " ".join(words)
        last = end + 1
        while last < self.body and self.tokens[last].text != "where":
            last += 1
        return " ".join(words), " ".join(text_of(self.tokens[end + 1 : last]).split())


def items(tokens, start, end):
    """The items between two indices, in order."""
    while start < end and tokens[start].kind != "end":
        item = Item(tokens, start)
        yield item
        start = item.end
