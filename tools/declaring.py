"""Where each name of a source is declared, by its tokens alone. The source may be in the midst of a change."""
from source import parts_of


class Declarations:
    """The declarations of a document, each as its tokens; `names` has the tokens that declare, by their space and their text."""

    def __init__(self, tokens):
        self.parts = [it for it in parts_of(tokens, (";",)) if it]
        self.names = {}
        for part in self.parts:
            for space, text, token in declared_in(part):
                self.names.setdefault((space, text), token)

    def part(self, token):
        """The declaration that has the token."""
        return next((it for it in self.parts if token in it), [])

    def box(self, token):
        """The name of the box of which the token speaks: that of its declaration, or one at an end of a wire."""
        part = self.part(token)
        if is_kind(part, "box"):
            return part[1].text
        if is_kind(part, "wire"):
            at = part.index(token)
            name = part[at - 2].text if part[at - 1].text == "." else token.text
            return name if ("box", name) in self.names else None
        return None

    def declaration(self, token):
        """The token that declares the name, if there is one."""
        part = self.part(token)
        at = part.index(token) if token in part else 0
        if token.kind == "upper":
            return self.first(token.text, spaces_of_upper(part, at))
        if token.kind != "lower":
            return None
        if is_kind(part, "wire"):
            port = at > 1 and part[at - 1].text == "."
            return self.first(f"{part[at - 2].text}.{token.text}", ["port"]) if port else self.first(token.text, ["box", "stream"])
        if is_kind(part, "box", "stream") and at == 1:
            return token
        return bound_before(part, at) or self.first(token.text, ["function"])

    def first(self, text, spaces):
        return next((self.names[space, text] for space in spaces if (space, text) in self.names), None)


def is_kind(part, *kinds):
    return len(part) > 1 and part[0].text in kinds


def declared_in(part):
    """The names that a declaration declares: triples of their space, their text and their token."""
    if is_kind(part, "data"):
        yield "type", part[1].text, part[1]
        for it in parts_of(part[3:], ("|",)):
            if it:
                yield "constructor", it[0].text, it[0]
    elif is_kind(part, "exception"):
        yield "exception", part[1].text, part[1]
    elif is_kind(part, "stream"):
        yield "stream", part[1].text, part[1]
    elif is_kind(part, "box"):
        yield "box", part[1].text, part[1]
        for token, after in zip(part, part[1:]):
            if after.text == "::":
                yield "port", f"{part[1].text}.{token.text}", token
    elif len(part) > 1 and part[1].text == "::":
        yield "function", part[0].text, part[0]


def spaces_of_upper(part, at):
    """The spaces in which the upper name at this place may be declared, the likeliest first."""
    texts = [it.text for it in part[:at]]
    before = texts[-1] if texts else ""
    if before == "raise" or is_kind(part, "exception") and at == 1 or "handle" in texts and before in ("handle", "|"):
        return ["exception", "constructor"]
    is_constructor = is_kind(part, "data") and before in ("=", "|")
    in_types = is_kind(part, "exception", "data") or len(texts) > 1 and texts[1] == "::" or is_kind(part, "box") and not {"match", "fair"} & set(texts)
    if not is_constructor and (in_types or before == "as" or texts[-3:-2] == ["vector"]):
        return ["type"]
    return ["constructor", "exception", "type"]


def bound_before(part, at):
    """The nearest place before that binds the variable: behind `let`, or in a pattern."""
    in_pattern, found = True, None
    for before, token in zip(part, part[1 : at + 1]):
        if token.text in ("->", "="):
            in_pattern = False
        elif token.text in ("|", "of", "match", "fair", "handle"):
            in_pattern = True
        elif token.kind == "lower" and token.text == part[at].text and (in_pattern or before.text == "let"):
            found = token
    return found
