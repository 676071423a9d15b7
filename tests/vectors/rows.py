"""Reads the constants and the tables of rows out of the vectors' source files.

The rows are all that these implementations share with the programs. Whatever stands in a constant and cannot be read here is an error.
"""
import ast
import operator
import pathlib
import re

CRATES = pathlib.Path(__file__).resolve().parents[2] / "crates"
CONSTANT = re.compile(r"\bconst (\w+): (?:u64|usize) = ([^;\[\]]+);")
TABLE = re.compile(r"\bconst (\w+): \[(?:u64|usize|u16); (\w+)\] = (\[[^;\[\]]*\]);")
OPERATIONS = {ast.Add: operator.add, ast.Sub: operator.sub, ast.Mult: operator.mul}


def evaluate(node, known):
    """The number of an expression: numbers and known names, added, subtracted and multiplied."""
    if isinstance(node, ast.Constant) and type(node.value) is int:
        return node.value
    if isinstance(node, ast.Name) and node.id in known:
        return known[node.id]
    if isinstance(node, ast.BinOp) and type(node.op) in OPERATIONS:
        return OPERATIONS[type(node.op)](evaluate(node.left, known), evaluate(node.right, known))
    raise ValueError(f"cannot read {ast.unparse(node)!r}")


def number(node, known):
    """The same, of 64 bits."""
    value = evaluate(node, known)
    if not 0 <= value < 2**64:
        raise ValueError(f"{ast.unparse(node)!r} is {value}, which is not a number of 64 bits")
    return value


def parsed(text):
    return ast.parse(f"({text})", mode="eval").body


def read_text(text, known):
    """The constants and the tables of a file's text, by name. The known names may stand in it too."""
    code = re.sub(r"//.*", "", text)
    constants, tables = dict(known), {}
    for name, expression in CONSTANT.findall(code):
        constants[name] = number(parsed(expression), constants)
    for name, declared, items in TABLE.findall(code):
        tables[name] = [number(item, constants) for item in parsed(items).elts]
        if len(tables[name]) != number(parsed(declared), constants):
            raise ValueError(f"{name} has {len(tables[name])} rows, declared are {declared}")
    found = len(CONSTANT.findall(code)) + len(TABLE.findall(code))
    written = len(re.findall(r"\b(?:const|static)\b", code))
    if found != written:
        raise ValueError(f"{written} constants, of which {found} can be read")
    return constants, tables


def read(file, known=()):
    """The constants and the tables of a file below crates/."""
    try:
        return read_text((CRATES / file).read_text(), known)
    except (SyntaxError, ValueError) as error:
        raise ValueError(f"{file}: {error}") from error


def meanings(parts, unit, named):
    """What the parts mean, by how many units each is."""
    found = {parts[name] // parts[unit]: meaning for name, meaning in named.items()}
    if len(found) != len(named):
        raise ValueError(f"two of {', '.join(named)} are as many times {unit}")
    return found
