"""The grammars of editors/ know each token and each comment of all sources in examples/, as the lexer does."""
import json
import os
import re
import shutil
import subprocess
import unittest

from setting import TOP, InRoom, programs

from lexing import KEYWORDS, NoToken, pieces

# What each grammar calls a token of each kind. Keywords have several classes, and none of them is that of a name.
VSCODE = {
    "comment": "comment.line.double-dash.hume",
    "lower": "variable.other.hume",
    "upper": "entity.name.type.hume",
    "number": "constant.numeric.hume",
    "letter": "constant.character.hume",
    "quoted": "string.quoted.double.hume",
    "symbol": "keyword.operator.hume",
}
VIM = {"comment": "humeComment", "lower": "humeName", "upper": "humeUpper", "number": "humeNumber", "letter": "humeLetter"} | {
    "quoted": "humeQuoted",
    "symbol": "humeSymbol",
}
VIM_KEYWORDS = {"humeDeclaration", "humeKeyword", "humeType", "humeWord", "humeTruth"}
ALL = " ".join([*sorted(KEYWORDS), "a a_1 A B2 007 'a' '\\n' '\\'' '\"' \"p q\" -- a comment"])


def texts():
    """The sources that are tokens from front to end, by their names, and one with each keyword."""
    found = {"all": ALL.encode()}
    for path in programs():
        with open(path, "rb") as file:
            text = file.read()
        try:
            pieces(text)
        except NoToken:
            continue
        found[path] = text
    return found


class TextMate(unittest.TestCase):
    def test_each_token_has_its_scope(self):
        with open(os.path.join(TOP, "editors/vscode/syntaxes/hume.tmLanguage.json"), encoding="utf-8") as file:
            rules = [(it["name"], re.compile(it["match"])) for it in json.load(file)["patterns"]]
        count = 0
        for name, text in texts().items():
            for line in text.decode("latin-1").split("\n"):
                wanted = [(it.place, it.text, it.kind) for it in pieces(line.encode("latin-1"))]
                found = self.cut(line, rules)
                self.assertEqual([it[:2] for it in found], [it[:2] for it in wanted], name)
                for (_, text_found, scope), (_, _, kind) in zip(found, wanted):
                    if kind == "keyword":
                        self.assertNotIn(scope, VSCODE.values(), text_found)
                    else:
                        self.assertEqual(scope, VSCODE[kind], text_found)
                    count += 1
        self.assertGreater(count, 5000)

    def cut(self, line, rules):
        """The line as an editor cuts it: the rule that matches earliest, of several the first one."""
        found, at = [], 0
        while at < len(line):
            matches = [(it.start(), n, it) for n, (_, rule) in enumerate(rules) if (it := rule.search(line, at))]
            if not matches:
                break
            _, n, it = min(matches, key=lambda one: one[:2])
            found.append((it.start(), it[0], rules[n][0]))
            at = it.end()
        return found

    def test_the_extension_names_the_grammar(self):
        folder = os.path.join(TOP, "editors/vscode")
        with open(os.path.join(folder, "package.json"), encoding="utf-8") as file:
            parts = json.load(file)["contributes"]
        for path in (parts["languages"][0]["configuration"], parts["grammars"][0]["path"]):
            with open(os.path.join(folder, path), encoding="utf-8") as file:
                json.load(file)


# VS Code as far as the extension sees it: one document that opens, whose findings, bounds and declarations are printed.
VSCODE_STUB = """
const it = (name, ...parts) => class { constructor(...given) { parts.forEach((part, n) => (this[part] = given[n])); } };
const document = { languageId: "hume", uri: { toString: () => "file:///a" }, getText: () => process.argv[3] };
const place = { line: 0, character: 5 };
const shown = { command: process.argv[2] };
const done = () => "found" in shown && "hover" in shown && "at" in shown && (console.log(JSON.stringify(shown)), process.exit());
const vscode = {
  DiagnosticSeverity: { Error: "error", Warning: "warning" }, Uri: { parse: (text) => text }, MarkdownString: it("M", "text"),
  Range: it("R", "line", "from", "last", "to"), Diagnostic: it("D", "range", "message", "severity"), Hover: it("H", "text", "range"),
  Location: it("L", "uri", "range"), window: { showWarningMessage: console.error },
  workspace: { textDocuments: [document], getConfiguration: () => ({ get: () => process.argv[2] }), onDidOpenTextDocument: () => 0,
    onDidChangeTextDocument: () => 0, onDidCloseTextDocument: () => 0 },
  languages: {
    createDiagnosticCollection: () => ({ set: (uri, found) => { shown.found = found; done(); } }),
    registerHoverProvider: (_, { provideHover }) => provideHover(document, place).then((found) => { shown.hover = found; done(); }),
    registerDefinitionProvider: (_, { provideDefinition }) => provideDefinition(document, place).then((found) => { shown.at = found; done(); }),
  },
};
const load = require("module")._load;
require("module")._load = (name, ...more) => (name === "vscode" ? vscode : load(name, ...more));
require(process.argv[4]).activate({ subscriptions: [] });
"""
UNUSED = "box b in (x :: bool) out (y :: bool) match (x) -> x ; wire b.y to b.x ; f :: bool -> bool ; f x = x ;"


@unittest.skipUnless(shutil.which("node"), "node is missing (apt-get install nodejs)")
class VSCode(InRoom):
    def test_the_extension_shows_what_the_server_tells(self):
        words = [self.put("stub.js", VSCODE_STUB), os.path.join(TOP, "hume"), UNUSED, os.path.join(TOP, "editors/vscode/extension.js")]
        done = subprocess.run(["node", *words], stdin=subprocess.DEVNULL, capture_output=True, timeout=100)
        self.assertEqual(done.stderr, b"")
        shown = json.loads(done.stdout)
        self.assertEqual({it["severity"] for it in shown["found"]}, {"warning"})
        self.assertIn("box b heap 0 stack ", shown["hover"]["text"]["text"])
        self.assertEqual(shown["at"], {"uri": "file:///a", "range": {"line": 0, "from": 4, "last": 0, "to": 5}})


@unittest.skipUnless(shutil.which("vim"), "vim is missing (apt-get install vim)")
class Vim(InRoom):
    def run_vim(self, script):
        path = self.put("script.vim", f"set nocompatible\nset runtimepath^={TOP}/editors/vim\n{script}\nqall!\n")
        subprocess.run(["vim", "-e", "-s", "-N", "-u", "NONE", "-i", "NONE", "-S", path], stdin=subprocess.DEVNULL, timeout=100)

    def test_each_token_has_its_group(self):
        wanted, script = [], ["syntax on", "filetype on", f"source {TOP}/editors/vim/ftdetect/hume.vim", "let g:found = []"]
        for n, text in enumerate(texts().values()):
            path = self.put(f"{n}.hume", text.decode("latin-1"))
            places = []
            for number, line in enumerate(text.decode("latin-1").split("\n")):
                for it in pieces(line.encode("latin-1")):
                    places.append([number + 1, it.place + 1])
                    wanted.append((it.kind, it.text, path))
            script += [f"silent edit {path}", f"for [l, c] in {json.dumps(places)}"]
            script += ["  call add(g:found, synIDattr(synID(l, c, 1), 'name'))", "endfor"]
        script.append(f"call writefile(g:found, '{self.room}/found')")
        self.run_vim("\n".join(script))
        found = self.read("found").split("\n")[:-1]
        self.assertEqual(len(found), len(wanted))
        for group, (kind, text, path) in zip(found, wanted):
            if kind == "keyword":
                self.assertIn(group, VIM_KEYWORDS, (text, path))
            else:
                self.assertEqual(group, VIM[kind], (text, path))

    def test_the_server_is_registered(self):
        self.put("autoload/lsp.vim", f"function lsp#register_server(server)\n  call writefile([json_encode(a:server)], '{self.room}/server')\nendfunction\n")
        os.symlink(os.path.join(TOP, "hume"), os.path.join(self.room, "hume"))
        script = f"set runtimepath+={self.room}\nlet $PATH .= ':{self.room}'\nlet g:lsp_loaded = 1\nfiletype plugin on\nsetfiletype hume"
        self.run_vim(script)
        self.assertEqual(json.loads(self.read("server")), {"name": "hume", "cmd": ["hume", "server"], "allowlist": ["hume"]})

    def test_refusals_are_errors(self):
        self.put("told", "p.hume:4: refused 55: the port isn't handed in\nbox b heap 0 stack 3 work 3\nq.hume:2:7: refused 20: no program goes on so\n")
        entries = "map(getqflist(), 'printf(\"%s %d %d %d %s\", bufname(v:val.bufnr), v:val.lnum, v:val.col, v:val.nr, v:val.text)')"
        self.run_vim(f"compiler hume\ncd {self.room}\ncgetfile told\ncall writefile({entries}, 'found')")
        self.assertEqual(self.read("found"), "p.hume 4 0 55 the port isn't handed in\nq.hume 2 7 20 no program goes on so\n")


if __name__ == "__main__":
    unittest.main()
