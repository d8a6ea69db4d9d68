"""Makes docs/PROMISE.md: what the contract of the call `hume` rests on, form by form, in rings from the call to the rules of sources,
and what those of the calls `console` and `hume_c` rest on besides."""
import os
import re
import sys

from forms import CASES, FORMS, Form
from sources import TOP, begins, doc_of_type, functions, modules, reached, read, shown

# The function whose contract is the promise: its file and its name.
HEADLINE = "top", "hume"

# The calls that have a contract of their own: the command's word, the function's file and name, and what the call makes.
OWN = (
    ("console", ("calling", "console"), "Sessions"),
    ("c", ("call", "hume_c"), "C programs"),
)

# Each ring begins at these definitions. A definition belongs to the first ring that reaches it without a beginning of a later one.
RINGS = (
    ("The call and its ports", ("hume_calls::IsUsage", "hume_calls::Headline")),
    (
        "What a core means, takes and prints",
        (
            *("run_rounds::Inputs", "run_rounds::AreInputs", "run_rounds::streams", "run_rounds::outputs", "run_rounds::run_few"),
            *("run_rounds::run_acts", "run_rounds::members_acts", "run_rounds::blocked_round", "log_rounds::record_acts"),
            *("log_rounds::verify_acts", "log_rounds::IsOutcome", "log_rounds::blocked_superstep", "trace_print::space_table"),
            *("trace_print::box_line", "trace_print::total_line_of", "demo_net::demo_text", "demo_rounds::demo_lines"),
            *("box_calculus::scripted", "union_laws::followed_by", "union_front::PassesAt", "union_front::StaysWithin"),
        ),
    ),
    (
        "Which text has which core",
        (
            *("hume_front::IsAccepted", "hume_front::IsProgramOf", "hume_front::IsSound", "check_rules::IsCoreOf", "wiring_check::IsWiringOf"),
            *("space_costs::AreCosts", "hume_ast::StandsFor", "hume_lex::IsRead"),
        ),
    ),
    ("Which rule is told", ("hume_front::Breaks", "hume_front::BreaksProgram", "hume_front::BreaksSoundness", "box_costs::BreaksCosts")),
)

# What can be believed without the rest: a title and where it begins.
COROLLARIES = (
    ("What a check of an accepted core prints", "space_table"),
    ("What a run of an accepted core does with its ports", "run_acts"),
    ("What a demo of an accepted core tells", "demo_lines"),
)

INTRO = """# What the promise rests on

<!-- made by `.ci/definitions promise`; `.ci/run` compares it with the sources -->

The promise of the tool is the contract of `{name}` in `{path}`, that of sessions is the contract of `{console}` in
`{console_path}`, and that of C programs is the contract of `{hume_c}` in `{hume_c_path}`. This page lists
all definitions that their clauses reach. If these say what you mean, you have to believe nothing else of this repository. (Library words, such as `map` and `take`, are the toolchain's.)

Whoever uses one form alone has to believe only what the first two columns of its row count. Each form has a part of this page, with the
definitions that no part above it has, ring by ring, each ring in an order in which one may read it.

"""

COUNTED = """A form's definitions are those that the clauses of its call reach when, of each definition by cases on the form (on `Order`, or on a
flag or a port that follows from it), the lines of other forms are left out, and so is each definition that reads words as other forms alone.
"""


def function_of(place, public):
    """The public function of that file and name."""
    return next(it for it in public if it.name == place[1] and it.path.endswith(f"/{place[0]}.rt"))


def lines_of(definitions):
    return sum(len(it.text.split("\n")) for it in definitions)


def crate_of(it):
    return it.module.name.split(".")[1]


def beginnings(order):
    """For each ring the definitions at which it begins, all of which there are."""
    for title, names in RINGS:
        found = [it for it in order if f"{crate_of(it)}::{it.name}" in names]
        lacking = set(names) - {f"{crate_of(it)}::{it.name}" for it in found}
        if lacking:
            sys.exit(f"the ring '{title}' begins at what the contract doesn't reach: {', '.join(sorted(lacking))}")
        yield found


def rings_of(order, known):
    """The number of the ring of each definition, counted from 0."""
    begin = list(beginnings(order))
    found = {}
    for at, starts in enumerate(begin):
        later = {it for others in begin[at + 1 :] for it in others}
        inside, _ = reached([it for it in starts if it not in later], known, stop=later)
        for it in inside:
            if it not in later:
                found.setdefault(it, at)
    return {it: found.get(it, len(RINGS) - 1) for it in order}


def listing(definitions, level):
    for path in dict.fromkeys(it.module.path for it in definitions):
        print(f"{level} `{shown(path)}`\n")
        for it in definitions:
            if it.module.path == path:
                print(f"- `{it.name}`" + (f": {it.says}" if it.says else ""))
        print()


def short_listing(definitions):
    for path in dict.fromkeys(it.module.path for it in definitions):
        print(f"- `{shown(path)}`: " + ", ".join(f"`{it.name}`" for it in definitions if it.module.path == path))
    print()


def constants(types):
    """The constants that definitions cite, by file: name, value and what the comment says."""
    for crate, inside in sorted({(it[1], it[2]) for it in types if ".TheConstants." in it[2]}):
        module, _, name = inside.partition(".TheConstants.")
        path = os.path.join(TOP, "crates", crate, "src", *module.split(".")) + ".rt"
        m = re.search(r"((?:^ *///.*\n)*)^ *pub(?:\(crate\))? const " + re.escape(name) + r": [^=]*= (.*);", read(path), re.M)
        if m:
            says = " ".join(it.strip().lstrip("/ ") for it in m.group(1).strip().split("\n"))
            yield name, m.group(2), says, path


def print_constants(types, title):
    rows = list(constants(types))
    if not rows:
        return
    print(f"{title}\n\n| constant | value | of what | file |\n|---|---|---|---|")
    for name, value, says, path in rows:
        print(f"| `{name}` | {value} | {says} | `{shown(path)}` |")
    print()


def print_port():
    """The trait of ports, whose clauses are what the call may expect of each port."""
    for crate in sorted(os.listdir(os.path.join(TOP, "crates"))):
        for at, folders, names in os.walk(os.path.join(TOP, "crates", crate, "src")):
            for path in (os.path.join(at, it) for it in names if it == "port.rt"):
                trait = re.search(r"^((?:///[^\n]*\n)*pub trait Port\b.*?^\})", read(path), re.M | re.S)
                if trait:
                    print(f"## The trait `Port` (`{shown(path)}`)\n\nEach port that is handed in is taken to keep these clauses.\n")
                    print(f"```\n{trait.group(1)}\n```\n")


def types_in(types):
    """The types by file and name, with what their comments say."""
    rows = {}
    for _, crate, inside in types:
        found = doc_of_type(crate, inside.split(".The")[0])
        if found and found[1]:
            rows[found[0], found[1]] = found[2]
    return rows


def print_types(rows, title):
    if not rows:
        return
    print(f"{title}\n")
    for (path, name), says in sorted(rows.items()):
        print(f"- `{name}` (`{shown(path)}`)" + (f": {says}" if says else ""))
    print()


def row(title, every, more):
    return f"| {title} | {len(every)} | {lines_of(every)} | {len(more)} | {lines_of(more)} |"


def print_forms(parts):
    """The table of forms: what each rests on, and what of that no form above it does."""
    print("| form | definitions | lines | of these beyond the forms above | lines |\n|---|---|---|---|---|")
    for title, every, more in parts:
        print(row(title, every, more))
    every = [it for _, _, more in parts for it in more]
    print(f"| all, in {len({it.module.path for it in every})} files | {len(every)} | {lines_of(every)} | | |\n")
    print(COUNTED)


def print_rings(order, rings):
    print("The definitions of `hume` stand in four rings, from the call to the rules of sources:\n")
    print("| ring | definitions | lines |\n|---|---|---|")
    for at, (title, _) in enumerate(RINGS):
        ring = [it for it in order if rings[it] == at]
        print(f"| {at + 1}. {title} | {len(ring)} | {lines_of(ring)} |")
    print()


def print_part(title, more, rings):
    """The definitions of a form that no form above it has, ring by ring."""
    print(f"## {title}: {len(more)} definitions, {lines_of(more)} lines\n")
    for at, (ring, _) in enumerate(RINGS):
        inside = [it for it in more if rings[it] == at]
        if inside:
            print(f"### Ring {at + 1}: {ring[0].lower()}{ring[1:]}\n")
            listing(inside, "####")


def print_own(word, makes, head, more, types, before):
    """What the contract of a call rests on that no form above it does."""
    print(f"## `{word}`: {len(more)} definitions, {lines_of(more)} lines\n")
    print(f"{makes} are a contract of their own, that of `{head.name}`. Its clauses reach these beyond those of all forms above:\n")
    listing(more, "###")
    cited = {(path, name) for name, _, _, path in constants(before)}
    own = [it for it in types if it not in before]
    print_constants([it for it in own if not cited & {(path, name) for name, _, _, path in constants([it])}], "### Constants that these cite")
    named = types_in(before)
    print_types({key: says for key, says in types_in(own).items() if key not in named}, "### Types that these speak of")


def is_law(it):
    """Whether a public function is there for its contract alone: it stands among laws, or takes and gives nothing."""
    return it.name != "(member)" and (it.path.endswith("/laws.rt") or it.is_bare)


def promised_laws(public):
    """The laws that README names where it says what is promised, in its order. Where several crates have a law of that name it gives the crate."""
    section = re.search(r"^## What is promised\n(.*?)^## ", read(os.path.join(TOP, "README.md")), re.M | re.S).group(1)
    found = {}
    for name in re.findall(r"`([\w:]+)`", section):
        laws = [it for it in public if is_law(it) and name in (it.name, it.public_name())]
        if len(laws) > 1:
            sys.exit(f"README names '{name}', and there are {', '.join(it.public_name() for it in laws)}")
        found.update(dict.fromkeys(laws))
    return list(found)


def print_promised_laws(public, order, known):
    print("## What the laws that README promises rest on besides\n")
    for law in promised_laws(public):
        before = set(order)
        more = [it for it in reached(begins(law, known), known)[0] if it not in before]
        count = "1 definition" if len(more) == 1 else f"{len(more)} definitions"
        print(f"`{law.public_name()}`: " + (f"{count} that neither the contracts nor the laws above reach." if more else "nothing else.") + "\n")
        short_listing(more) if more else None
        order = order + more


def print_corollaries(order, known):
    print("## Three parts of the promise by themselves\n")
    for title, name in COROLLARIES:
        rests, _ = reached([it for it in order if it.name == name], known)
        print(f"{title} (`{name}`) rests on {len(rests)} definitions alone, {lines_of(rests)} lines:\n")
        short_listing(rests)


def parts_of(head, own, known):
    """Each form with all that it rests on, and with what of that no form above it does. Calls of their own come last."""
    placed = set()
    for name, begin, form in [(it, head, Form(it, known)) for it, _ in FORMS] + [(word, call, None) for word, call, _ in own]:
        every, _ = reached(begins(begin, known), known, form=form)
        more = [it for it in every if it not in placed]
        placed.update(more)
        yield f"`{name}`", every, more


def promise():
    known, public = modules(("specs",)), functions()
    head = function_of(HEADLINE, public)
    own = [(word, function_of(place, public), makes) for word, place, makes in OWN]
    order, types = reached(begins(head, known), known)
    rings = rings_of(order, known)
    parts = list(parts_of(head, own, known))
    lacking = {it.name for it in set(order) - {it for _, _, more in parts for it in more}}
    if lacking:
        sys.exit(f"no form of a call reaches {', '.join(sorted(lacking))}")
    unknown = set(CASES) - {it.name for it in order}
    if unknown:
        sys.exit(f"forms.py tells cases of what the contract doesn't reach: {', '.join(sorted(unknown))}")
    calls = {call.name: call.name for _, call, _ in own} | {f"{call.name}_path": shown(call.path) for _, call, _ in own}
    print(INTRO.format(name=head.name, path=shown(head.path), **calls), end="")
    print_forms(parts)
    print_rings(order, rings)
    for title, _, more in parts[: -len(own)]:
        print_part(title, more, rings)
    before = list(types)
    for (word, call, makes), (_, _, more) in zip(own, parts[-len(own) :]):
        named = reached(begins(call, known), known)[1]
        print_own(word, makes, call, more, named, before)
        before += [it for it in named if it not in before]
    print_constants(types, "## Constants that definitions cite")
    print_port()
    print_types(types_in(types), "## Types that the definitions speak of")
    print_promised_laws(public, order + [it for _, _, more in parts[-len(own) :] for it in more], known)
    print_corollaries(order, known)
    print("## Public laws\n")
    print("Nobody has to believe these: they are proved, and say that the definitions fit each other. Each is the contract of that function.\n")
    for it in public:
        if is_law(it):
            print(f"- `{it.public_name()}`: {it.says}")
