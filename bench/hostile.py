#!/usr/bin/env python3
"""Writes long sources that are hard on a checker, one a file, into the folder that is named: each as long as a source may be."""
import re
import sys
from pathlib import Path

MOST_BYTES = 262_144
MOST_TOKENS = 65_536
TOKEN = re.compile(r'[A-Za-z][A-Za-z0-9_]*|[0-9]+|"[^"]*"|->|::|<<|>>|==|/=|<=|>=|&&|\|\||\S')


def fits(text):
    return len(text) <= MOST_BYTES and len(TOKEN.findall(text)) <= MOST_TOKENS


def longest(make, most=60_000):
    """The source of the most parts that is no longer than a source may be."""
    low, high = 1, most
    while low < high:
        middle = (low + high + 1) // 2
        if fits(make(middle)):
            low = middle
        else:
            high = middle - 1
    return make(low)


def chain_of_functions(n):
    return "f0::int 8->int 8;\nf0 x=x;\n" + "".join(f"f{i}::int 8->int 8;\nf{i} x=f{i - 1} x;\n" for i in range(1, n))


def forward_chain_of_functions(n):
    """Each calls the one that is declared behind it."""
    return "".join(f"f{i}::bool->bool;\nf{i} x=f{i + 1} x;\n" for i in range(n)) + f"f{n}::bool->bool;\nf{n} x=x;\n"


def forward_chain_of_data_types(n):
    return "".join(f"data D{i}=C{i} D{i + 1};\n" for i in range(n)) + f"data D{n}=C{n};\n"


def chain_of_few_functions(n):
    return chain_of_functions(min(n, 256)) + one_box


def cycle_of_functions(n):
    return "".join(f"f{i}::int 8->int 8;\nf{i} x=f{(i + 1) % n} x;\n" for i in range(n))


def chain_of_data_types(n):
    return "data D0=C0;\n" + "".join(f"data D{i}=C{i} D{i - 1};\n" for i in range(1, n))


def cycle_of_data_types(n):
    return "".join(f"data D{i}=C{i} D{(i + 1) % n};\n" for i in range(n))


def names_in_one_space(n):
    return "".join(f"exception E{i};\n" for i in range(n))


def one_name_many_times(n):
    return "f::int 8->int 8;\nf x=f x;\n" * n


def one_data_type_many_times(n):
    return "data A=B A;\n" * n


def equations(n):
    return "f::int 8->int 8;\n" + "".join(f"f {i % 100}={i % 100};\n" for i in range(n))


def doubling_types(n):
    lets = "".join(f"let x{i}=(x{i - 1},x{i - 1}) in " for i in range(1, 62))
    return "".join(f"g{k}::int 8->int 8;\ng{k} x0={lets}0;\n" for k in range(n))


def deep(n, wrap, ty):
    body = "x"
    for _ in range(30):
        body = wrap(body)
    return "".join(f"h{k}::{ty}->{ty};\nh{k} x={body};\n" for k in range(n))


def deep_operators(n):
    return deep(n, lambda e: f"({e}+1)", "int 8")


def deep_comparisons(n):
    return deep(n, lambda e: f"({e}==true)", "bool")


def deep_open_comparisons(n):
    body = "1"
    for _ in range(20):
        body = f"(if true then {body} else 1)"
    return "".join(f"h{k}::int 8->bool;\nh{k} x={body}=={body};\n" for k in range(n))


def deep_ifs(n):
    return deep(n, lambda e: f"(if x then {e} else x)", "bool")


def deep_cases(n):
    body = "x"
    for _ in range(30):
        body = f"(case x of true->{body}|_->x end)"
    return "".join(f"h{k}::bool->bool;\nh{k} x={body};\n" for k in range(n))


def long_sums(n):
    return "f::int 8->int 8;\n" + ("f x=x" + "+x" * 60 + ";\n") * n


def wires_to_one_box(n):
    return 'stream i from "i";\n' + one_box + "wire i to b.x;\n" * n


def wires_with_first_values(n):
    return one_box + "wire b.y to b.x initial 1;\n" * n


def boxes(n):
    return "".join(f"box b{i} in(x::int 8)out(y::int 8)match(x)->x;\n" for i in range(n))


def rules(n):
    return "box b in(x::int 8)out(y::int 8)match" + "|".join(f"({i % 100})->x\n" for i in range(n)) + ";\n"


def streams(n):
    return "".join(f'stream s{i} from "i";\n' for i in range(n))


def long_vectors(n):
    vector = "<<" + ",".join(["x"] * 1000) + ">>"
    return "f::int 8->int 8;\nf x=" + "".join(f"let v{i}={vector} in " for i in range(n)) + "0;\n"


def constructors(n):
    return "data D=" + "|".join(f"C{i}" for i in range(n)) + ";\nf::D->int 8;\nf x=case x of " + "|".join(f"C{i}->1" for i in range(n)) + " end;\n"


def alternatives(n):
    return "f::int 8->int 8;\nf x=case x of " + "|".join("y->y" for _ in range(n)) + " end;\n"


def parameters(n):
    return "f::" + "->".join(["int 8"] * (n + 1)) + ";\nf " + " ".join(f"x{i}" for i in range(n)) + "=x0;\n"


def large_data_types(n):
    """Each holds the one before sixteen times, so that sizes double and double again."""
    return "data D0=C0 int 8;\n" + "".join(f"data D{i}=C{i} " + f"D{i - 1} " * 16 + ";\n" for i in range(1, n))


def one_type_of_many_variables(n):
    ty = "(" + ",".join(["(int 8,int 8,int 8,int 8)"] * 16) + ")"
    return f"f::{ty}->int 8;\nf x=" + "".join(f"let x{i}=x in " for i in range(min(n, 60))) + "0;\n" + "".join(
        f"g{k}::{ty}->int 8;\ng{k} x=f x;\n" for k in range(n))


def calls_of_all(n):
    calls = ["+".join(f"f{i} x" for i in range(k, k + 50)) for k in range(0, 200, 50)]
    return chain_of_functions(250) + "g::int 8->int 8;\n" + "".join(f"g x={calls[i % 4]};\n" for i in range(n))


one_box = "box b in(x::int 8)out(y::int 8)match(x)->x;\n"

SOURCES = [
    chain_of_functions, forward_chain_of_functions, chain_of_few_functions, cycle_of_functions, chain_of_data_types,
    forward_chain_of_data_types, cycle_of_data_types, names_in_one_space, one_name_many_times, one_data_type_many_times,
    equations, doubling_types, deep_operators, deep_comparisons, deep_open_comparisons, deep_ifs, deep_cases, long_sums,
    wires_to_one_box, wires_with_first_values, boxes, rules, streams, long_vectors, constructors, alternatives, parameters,
    large_data_types, one_type_of_many_variables, calls_of_all,
]

for source in SOURCES:
    Path(sys.argv[1], source.__name__).write_text(longest(source))
