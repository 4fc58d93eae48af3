"""Expressions of Lua without calls: conditions, log messages, and what a person asks for. No code of the program runs for them."""
from __future__ import annotations

import math
import operator
import re
from collections.abc import Callable
from typing import Any

TOKEN = re.compile(r"\s*(?:(?P<number>0[xX][0-9a-fA-F]+|\d+\.?\d*(?:[eE][+-]?\d+)?)|(?P<text>\"[^\"\\]*\"|'[^'\\]*')"
                   r"|(?P<name>[A-Za-z_]\w*)|(?P<sign>==|~=|<=|>=|//|\.\.|[-+*/%^#<>().\[\]]))", re.ASCII)
LEVELS = [("or",), ("and",), ("<", ">", "<=", ">=", "~=", "=="), ("..",), ("+", "-"), ("*", "/", "//", "%")]
WORDS = {"nil": None, "true": True, "false": False}
ORDER = {"<": operator.lt, "<=": operator.le, ">": operator.gt, ">=": operator.ge}
ARITHMETIC = {"+": operator.add, "-": operator.sub, "*": operator.mul, "/": operator.truediv, "//": operator.floordiv, "%": operator.mod,
              "^": lambda a, b: math.pow(a, b)}
INTEGER = re.compile(r"-?\d+", re.ASCII)
FLOAT = re.compile(r"-?(?:\d+(?:\.\d+)?(?:e[-+]?\d+)?|inf|nan)", re.ASCII)
ADDRESS = re.compile(r"(function|table|thread|userdata): (?:builtin: )?(?:0x)?[0-9a-fA-F]+")
LEFT_OUT = "..."  # what a runtime tells in place of further entries

LookUp = Callable[[str], Any]      # the value of a name
Meaning = Callable[[LookUp], Any]  # what an expression gives


class NoValue(Exception):
    """The expression is not understood, or has no value here."""


class Table:
    """A table, by its entries "key = value". The types of keys and values are not told."""

    def __init__(self, number: int, entries: Callable[[int], list[str]]):
        self.number, self._entries = number, entries

    def entries(self) -> list[tuple[str, str]]:
        """Pairs of a key and a value."""
        return [(key, value) for key, _, value in (entry.partition(" = ") for entry in self._entries(self.number))]

    def get(self, key: object) -> object:
        name = text_of(int(key) if isinstance(key, float) and key.is_integer() else key)
        entries = dict(reversed(self.entries()))
        if name in entries:
            return read_text(entries[name])
        if LEFT_OUT in entries:
            raise NoValue(f"{name} is not among the entries that the runtime tells")
        return None

    def length(self) -> int:
        keys = {key for key, _ in self.entries()}
        if LEFT_OUT in keys:
            raise NoValue("the runtime does not tell all entries")
        return next(count for count in range(len(keys) + 1) if str(count + 1) not in keys)


def text_of(value: object) -> str:
    """A value as `tostring` of Lua writes it."""
    if value is None or isinstance(value, bool):
        return {None: "nil", True: "true", False: "false"}[value]
    if isinstance(value, float):
        text = f"{value:.14g}"
        return text + ".0" if INTEGER.fullmatch(text) else text
    return "table" if isinstance(value, Table) else str(value)


def read_text(text: str) -> object:
    """The value of a table's entry. A string "1" is taken for a number."""
    if text in WORDS:
        return WORDS[text]
    if INTEGER.fullmatch(text):
        return int(text)
    return float(text) if FLOAT.fullmatch(text) else text


def show(value: object) -> str:
    """A value as a person reads it: a string is quoted."""
    if isinstance(value, str) and not ADDRESS.fullmatch(value):
        return '"' + value.replace("\\", "\\\\").replace('"', '\\"').replace("\n", "\\n") + '"'
    return text_of(value)


def type_of(value: object) -> str:
    """The name of a value's type."""
    if isinstance(value, str):
        return match[1] if (match := ADDRESS.fullmatch(value)) else "string"
    return {bool: "boolean", int: "integer", float: "float", Table: "table"}.get(type(value), "nil")


def is_true(value: object) -> bool:
    return value is not None and value is not False


class Expression:
    """An expression. It is read at once, and NoValue is raised if it cannot be."""

    def __init__(self, text: str):
        self.tokens, self.at = _tokens(text), 0
        try:
            self.meaning = self._level(0)
        except RecursionError:
            raise NoValue("it is nested too deeply") from None
        if self.at < len(self.tokens):
            raise NoValue(f"not understood: {self.tokens[self.at][1]} (calls are not possible)")

    def __call__(self, look_up: LookUp) -> object:
        try:
            return self.meaning(look_up)
        except (TypeError, ValueError, ArithmeticError) as error:
            raise NoValue(f"it has no value here: {error}") from error

    def _next(self, *signs: str) -> str | None:
        """The next token, if it is one of these."""
        if self.at < len(self.tokens) and self.tokens[self.at][1] in signs:
            self.at += 1
            return self.tokens[self.at - 1][1]
        return None

    def _take(self) -> tuple[str, str]:
        if self.at == len(self.tokens):
            raise NoValue("it ends too early")
        self.at += 1
        return self.tokens[self.at - 1]

    def _need(self, sign: str) -> None:
        if not self._next(sign):
            raise NoValue(f"{sign} is missing")

    def _level(self, level: int) -> Meaning:
        if level == len(LEVELS):
            return self._unary()
        left = self._level(level + 1)
        while sign := self._next(*LEVELS[level]):
            left = _binary(sign, left, self._level(level + 1))
        return left

    def _unary(self) -> Meaning:
        if sign := self._next("not", "-", "#"):
            of = self._unary()
            return {"not": lambda look: not is_true(of(look)), "-": lambda look: -_number(of(look)), "#": lambda look: _length(of(look))}[sign]
        base = self._primary()
        return _binary("^", base, self._unary()) if self._next("^") else base

    def _primary(self) -> Meaning:
        if self._next("("):
            found = self._level(0)
            self._need(")")
        else:
            kind, token = self._take()
            if kind == "sign" or token in ("and", "or", "not"):
                raise NoValue(f"not understood: {token}")
            found = (lambda look: look(token)) if kind == "name" and token not in WORDS else _constant(kind, token)
        while sign := self._next(".", "["):
            found = _field(found, self._key(sign))
        return found

    def _key(self, sign: str) -> Meaning:
        if sign == "[":
            key = self._level(0)
            self._need("]")
            return key
        kind, name = self._take()
        if kind != "name":
            raise NoValue("a name is missing")
        return lambda _: name


def _tokens(text: str) -> list[tuple[str, str]]:
    found, at, text = [], 0, text.rstrip()
    while at < len(text):
        if not (match := TOKEN.match(text, at)):
            raise NoValue(f"not understood: {text[at:].strip()}")
        found.append((match.lastgroup, match[match.lastgroup]))
        at = match.end()
    return found


def _constant(kind: str, token: str) -> Meaning:
    if kind == "name":
        value: object = WORDS[token]
    elif kind == "text":
        value = token[1:-1]
    else:
        value = int(token, 0) if token[:2] in ("0x", "0X") else int(token) if token.isdigit() else float(token)
    return lambda _: value


def _field(table: Meaning, key: Meaning) -> Meaning:
    def get(look: LookUp) -> object:
        if not isinstance(of := table(look), Table):
            raise NoValue("it is no table, or one within another: the runtime tells one level")
        return of.get(key(look))
    return get


def _number(value: object) -> int | float:
    if isinstance(value, bool) or not isinstance(value, (int, float)):
        raise NoValue(f"{show(value)} is no number")
    return value


def _length(value: object) -> int:
    if isinstance(value, str):
        return len(value.encode())
    if isinstance(value, Table):
        return value.length()
    raise NoValue(f"{show(value)} has no length")


def _wrapped(value: int | float) -> int | float:
    return (value + (1 << 63)) % (1 << 64) - (1 << 63) if isinstance(value, int) else value


def _is_same(a: object, b: object) -> bool:
    if isinstance(a, Table) and isinstance(b, Table):
        if a.number != b.number:
            raise NoValue("the runtime does not tell whether two tables are the same")
        return True
    return isinstance(a, bool) == isinstance(b, bool) and a == b


def _is_ordered(sign: str, a: object, b: object) -> bool:
    if isinstance(a, str) and isinstance(b, str):
        return ORDER[sign](a.encode(), b.encode())
    return ORDER[sign](_number(a), _number(b))


def _joined(a: object, b: object) -> str:
    for value in a, b:
        if not isinstance(value, str):
            _number(value)
    return text_of(a) + text_of(b)


def _binary(sign: str, left: Meaning, right: Meaning) -> Meaning:
    if sign == "and":
        return lambda look: right(look) if is_true(value := left(look)) else value
    if sign == "or":
        return lambda look: value if is_true(value := left(look)) else right(look)
    if sign in ("==", "~="):
        return lambda look: _is_same(left(look), right(look)) == (sign == "==")
    if sign in ORDER:
        return lambda look: _is_ordered(sign, left(look), right(look))
    if sign == "..":
        return lambda look: _joined(left(look), right(look))
    return lambda look: _wrapped(ARITHMETIC[sign](_number(left(look)), _number(right(look))))
