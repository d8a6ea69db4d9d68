"""The definitions that the contract of the call `hume` reaches for one form of a call alone."""
import re
import sys

from sources import NAME, Definition, cited_by

# The forms of a call, in the order of docs/PROMISE.md: the word of the command, and the variant of `Order` that it is.
FORMS = (
    ("check", "Check"),
    ("run", "Run"),
    ("trace", "Run"),
    ("demo", "Demo"),
    ("record", "Log"),
    ("verify", "Log"),
    ("calc", "Calc"),
    ("union", "Union"),
)

# Definitions by cases on what follows from the form: a flag of the order, or whether the words name a source. The word in the pattern
# of the first case, that of the second one, and the forms of the first case.
CASES = {
    "Answers": ("None", "Some", ("demo",)),
    "compared_logs": ("true", "_", ("verify",)),
    "IsOwedLogged": ("true", "false", ("verify",)),
    "trace_writes": ("true", "false", ("trace",)),
}


def variant_of(it, word):
    """The variant of `Order` that a word means where a definition stands, if it means one."""
    at, name = it.module.imports.get(word, ("", ""))
    return name if at.endswith(".hume_calls.specs.declared.order.Order.TheVariants") else None


def sides(equation):
    """The words of the pattern of an equation, and its right side."""
    left, _, right = re.sub(r" =$", " = ", equation, flags=re.M).partition(" = ")
    return re.findall(NAME, left)[1:], right


class Form:
    """A form of a call, as a reader of definitions."""

    def __init__(self, name, known):
        self.name, self.variant, self.known = name, dict(FORMS)[name], known
        self.near, self.orders = {}, {}

    def is_for(self, it, words):
        """Whether an equation with these words in its pattern may be for the form."""
        if it.name not in CASES:
            return True
        first, second, forms = CASES[it.name]
        if (first in words) == (second in words):
            sys.exit(f"{it.module.path}: an equation of {it.name} is neither for '{first}' alone nor for '{second}' alone")
        return (first if self.name in forms else second) in words

    def equations_of(self, it):
        """The equations that are for the form: by cases on an order that of its variant, or else the one for all others."""
        every = [(each, *sides(each)) for each in it.equations()[1]]
        variants = {each: {variant_of(it, word) for word in words} - {None} for each, words, _ in every}
        fit = [each for each, words, _ in every if self.is_for(it, words)]
        own = [each for each in fit if self.variant in variants[each]]
        return own or [each for each in fit if not variants[each]]

    def orders_of(self, it):
        """The variants as which a definition may read words; none if it gives no order."""
        if it not in self.orders:
            self.orders[it] = set()
            head, every = it.equations()
            if re.search(r"→ Option Order$", head):
                text = "\n".join(sides(each)[1] for each in every)
                cited = cited_by(it, text, self.known)
                self.orders[it] = {variant_of(it, word) for word in re.findall(NAME, text)} - {None}
                self.orders[it].update(*(self.orders_of(other) for other in cited if isinstance(other, Definition)))
        return self.orders[it]

    def is_foreign(self, it):
        """Whether a definition reads words as orders of other forms alone."""
        orders = self.orders_of(it)
        return bool(orders) and self.variant not in orders

    def cited(self, it):
        """What a definition cites for the form."""
        if it not in self.near:
            head, every = it.equations()
            kept = self.equations_of(it)
            near = it.cited(self.known) if len(kept) == len(every) else cited_by(it, "\n".join([head, *kept]), self.known)
            self.near[it] = [n for n in near if not (isinstance(n, Definition) and self.is_foreign(n))]
        return self.near[it]
