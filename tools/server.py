"""hume server: a language server over the standard input and output. Errors and warnings as one types, the bounds of a box where the pointer
rests, and the way to a declaration."""
import sys

from declaring import Declarations
from diagnosing import bounds, diagnostics
from documents import Document
from messages import Closed, Malformed, Messages
from program import Usage

# So long after the last change the source is looked at.
PAUSE = 0.2
NOT_JSON, NO_METHOD, BAD_PARAMS = -32700, -32601, -32602
ABILITIES = {
    "textDocumentSync": {"openClose": True, "change": 1},
    "hoverProvider": True,
    "definitionProvider": True,
}


class Server:
    """The documents that are open, by their names."""

    def __init__(self, messages):
        self.messages, self.documents, self.changed, self.is_shut = messages, {}, set(), False
        self.answers = {
            "initialize": lambda _: {"capabilities": ABILITIES, "serverInfo": {"name": "hume"}},
            "shutdown": self.shut,
            "textDocument/hover": self.hover,
            "textDocument/definition": self.definition,
        }
        self.notes = {
            "textDocument/didOpen": lambda it: self.put(it["textDocument"]["uri"], it["textDocument"]["text"]),
            "textDocument/didChange": lambda it: self.put(it["textDocument"]["uri"], it["contentChanges"][-1]["text"]),
            "textDocument/didClose": self.close,
        }

    def put(self, name, text):
        self.documents[name] = Document(text)
        self.changed.add(name)

    def close(self, given):
        name = given["textDocument"]["uri"]
        self.documents.pop(name, None)
        self.changed.discard(name)
        self.publish(name, [])

    def shut(self, _):
        self.is_shut = True

    def publish(self, name, found):
        self.messages.send(method="textDocument/publishDiagnostics", params={"uri": name, "diagnostics": found})

    def look(self):
        """Looks at the documents that have changed."""
        for name in sorted(self.changed):
            self.publish(name, diagnostics(self.documents[name]))
        self.changed.clear()

    def pointed_at(self, given):
        """The document, its declarations and the token at a position; none where there is no token."""
        document = self.documents.get(given["textDocument"]["uri"])
        token = document and document.token(document.offset(given["position"]))
        return (document, Declarations(document.tokens), token) if token else (None, None, None)

    def hover(self, given):
        document, declarations, token = self.pointed_at(given)
        box = token and declarations.box(token)
        text = box and bounds(document, box)
        return {"contents": {"kind": "markdown", "value": f"```\n{text}\n```"}, "range": document.range(token.place)} if text else None

    def definition(self, given):
        document, declarations, token = self.pointed_at(given)
        found = token and declarations.declaration(token)
        return {"uri": given["textDocument"]["uri"], "range": document.range(found.place)} if found else None

    def answer(self, message):
        """Answers a message; a note has no answer."""
        number, method, given = message.get("id"), message.get("method"), message.get("params")
        known = self.answers if "id" in message else self.notes
        if method not in known:
            if "id" in message and method is not None:
                self.messages.send(id=number, error={"code": NO_METHOD, "message": f"there is no method {method}"})
            return
        try:
            result = known[method](given)
        except (KeyError, IndexError, TypeError, AttributeError, ValueError):
            if "id" in message:
                self.messages.send(id=number, error={"code": BAD_PARAMS, "message": f"{method} has other parameters"})
            return
        if "id" in message:
            self.messages.send(id=number, result=result)

    def serve(self):
        """Answers messages until there are no more; the status."""
        while True:
            try:
                message = self.messages.next(PAUSE if self.changed else None)
            except Malformed:
                self.messages.send(id=None, error={"code": NOT_JSON, "message": "the message is no JSON object"})
                continue
            except Closed:
                return 0 if self.is_shut else 1
            if message is None:
                self.look()
            elif message.get("method") == "exit":
                return 0 if self.is_shut else 1
            else:
                self.answer(message)


def main(_, words):
    if words:
        raise Usage("usage: hume server")
    return Server(Messages(sys.stdin.fileno(), sys.stdout.buffer)).serve()
