"""Small changes of a piece of source: which nodes have a neighbour, and which it is."""
from __future__ import annotations

import ast
from typing import Dict, List

OTHERS: Dict[type, type] = {
    ast.Lt: ast.LtE, ast.LtE: ast.Lt, ast.Gt: ast.GtE, ast.GtE: ast.Gt, ast.Eq: ast.NotEq, ast.NotEq: ast.Eq,
    ast.Is: ast.IsNot, ast.IsNot: ast.Is, ast.Add: ast.Sub, ast.Sub: ast.Add, ast.Mult: ast.Add,
    ast.FloorDiv: ast.Mult, ast.RShift: ast.LShift, ast.LShift: ast.RShift, ast.BitAnd: ast.BitOr,
    ast.BitOr: ast.BitAnd, ast.BitXor: ast.BitOr, ast.Mod: ast.FloorDiv, ast.And: ast.Or, ast.Or: ast.And}


def can_change(node: ast.AST) -> bool:
    """Returns whether a node has a neighbour."""
    if isinstance(node, ast.Constant):
        return type(node.value) is int
    if isinstance(node, ast.Compare):
        return type(node.ops[0]) in OTHERS
    if isinstance(node, (ast.BinOp, ast.BoolOp, ast.AugAssign)):
        return type(node.op) in OTHERS
    return isinstance(node, (ast.If, ast.IfExp))


def change(node: ast.AST) -> None:
    """Makes a node its neighbour."""
    if isinstance(node, ast.Constant):
        assert isinstance(node.value, int)
        node.value += 1
    elif isinstance(node, ast.Compare):
        node.ops[0] = OTHERS[type(node.ops[0])]()
    elif isinstance(node, (ast.BinOp, ast.BoolOp, ast.AugAssign)):
        node.op = OTHERS[type(node.op)]()
    elif isinstance(node, (ast.If, ast.IfExp)):
        node.test = ast.copy_location(ast.UnaryOp(ast.Not(), node.test), node.test)


def places(tree: ast.stmt) -> List[ast.AST]:
    """Returns the nodes that can be changed. Annotations are left out."""
    skipped = {id(part) for node in ast.walk(tree) if isinstance(node, (ast.FunctionDef, ast.AnnAssign, ast.arg))
               for note in (getattr(node, 'annotation', None), getattr(node, 'returns', None)) if note
               for part in ast.walk(note)}
    return [part for part in ast.walk(tree) if id(part) not in skipped and can_change(part)]


def text_of(node: ast.AST) -> str:
    """Returns the source of a node, its first line."""
    return ast.unparse(node).splitlines()[0]
