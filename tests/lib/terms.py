"""Reads the terms of clauses and definitions."""

import re

TOKEN = re.compile(r'\s+|--[^\n]*|"[^"\n]*"|\.(?=[\w_])|\[\]|[^\s(){}\[\],;".]+(?:\.[^\s(){}\[\],;".]+)*|[(){}\[\],;.]')
LEVELS = ({"→"}, {"↔"}, {"⊎"}, {"×"}, {"≡", "≢", "<", "≤", "==", "<ℤ", "≤ℤ"}, {"∷", "++", "∙"}, {"+", "-", "*", "/", "%", "^", "&&", "||", "+ℤ"})
RIGHT = (0, 2, 3, 5)
ENDS = (")", "]", "}", ",", ";", "=", ":", "in", "then", "else", "∥₁")


def tokens_of(text):
    """The tokens of a term; a projection behind a bracket is `.name`."""
    found, at = [], 0
    while at < len(text):
        match = TOKEN.match(text, at)
        if not match:
            raise ValueError(f"no token at {text[at:at + 40]!r}")
        word, at = match[0], match.end()
        if word.isspace() or word.startswith("--"):
            continue
        if word == "." and found and text[match.start() - 1] in ")]}":
            name = TOKEN.match(text, at)
            word, at = "." + name[0], name.end()
        elif word[0] == "λ" and len(word) > 1:
            found.append("λ")
            word = word[1:]
        found.append(word)
    return found


class Parser:
    """Terms as tuples: `var name`, `app head args`, `lam names body`, `op sign left right`, `bind sign name body`, `record fields`,
    `proj term field`, `tuple terms`, `let name term body`, `if terms`."""

    def __init__(self, tokens):
        self.tokens, self.at = tokens, 0

    def peek(self, ahead=0):
        return self.tokens[self.at + ahead] if self.at + ahead < len(self.tokens) else None

    def take(self, wanted=None):
        word = self.peek()
        if word is None or wanted not in (None, word):
            raise ValueError(f"{wanted} expected before {self.tokens[self.at:self.at + 6]}")
        self.at += 1
        return word

    def term(self, level=0):
        if level == 0 and self.is_binder():
            return self.binder()
        if level == len(LEVELS):
            return self.application()
        left = self.term(level + 1)
        while self.peek() in LEVELS[level]:
            sign = self.take()
            right = self.operand(level if level in RIGHT else level + 1)
            left = ("op", sign, left, right)
        return left

    def operand(self, level):
        """What stands behind a sign: a binder and a function go to the end."""
        if self.is_binder():
            return self.binder()
        return self.term(level)

    def is_binder(self):
        """Whether `(x y : A) →`, or with braces, is next."""
        if self.peek() not in ("(", "{"):
            return False
        at = self.at + 1
        while at < len(self.tokens) and re.match(r"[\w'₁-]+$", self.tokens[at]):
            at += 1
        return at > self.at + 1 and at < len(self.tokens) and self.tokens[at] == ":"

    def binder(self):
        open_sign = self.take()
        names = []
        while self.peek() != ":":
            names.append(self.take())
        self.take(":")
        kind = self.term()
        self.take(")" if open_sign == "(" else "}")
        if self.is_binder():
            body = self.binder()
            sign = body[1]
        elif self.peek() in ("→", "×"):
            sign = self.take()
            body = self.operand(0)
        else:
            return kind
        for name in reversed(names):
            body = ("bind", sign, name, body)
        return body

    def application(self):
        if self.peek() == "λ":
            return self.function()
        if self.peek() == "let":
            return self.naming()
        if self.peek() == "if":
            return self.choice()
        if self.peek() == "¬":
            self.take()
            return ("not", self.argument())
        head = self.argument()
        args = []
        while True:
            word = self.peek()
            if word == "{":
                self.group("{", "}")
            elif word == "λ":
                args.append(self.function())
            elif word is None or word in ENDS or any(word in level for level in LEVELS):
                break
            else:
                args.append(self.argument())
        return ("app", head, args) if args else head

    def function(self):
        self.take("λ")
        names = []
        while self.peek() != ".":
            if self.peek() == "(":
                group = self.group("(", ")")
                names += group[:group.index(":")] if ":" in group else ["_"]
            else:
                names.append(self.take())
        self.take(".")
        return ("lam", names, self.operand(0))

    def naming(self):
        self.take("let")
        name = self.take()
        if self.peek() == ":":
            self.take()
            self.term()
        self.take("=")
        what = self.term()
        self.take("in")
        return ("let", name, what, self.term())

    def choice(self):
        self.take("if")
        test = self.term()
        self.take("then")
        yes = self.term()
        self.take("else")
        return ("if", test, yes, self.term())

    def group(self, left, right):
        """Passes over what stands between brackets."""
        self.take(left)
        inside, depth = [], 1
        while True:
            word = self.take()
            depth += (word == left) - (word == right)
            if not depth:
                return inside
            inside.append(word)

    def argument(self):
        word = self.take()
        if word == "(":
            found = ("tuple", self.list_to(")"))
            found = found[1][0] if len(found[1]) == 1 else found
        elif word == "[":
            found = ("tuple", self.list_to("]"))
        elif word == "record":
            base = None if self.peek() == "{" else self.argument()
            found = ("record", self.fields())
            if base is not None:
                found = ("app", ("var", "record-with"), [base, found])
        elif word == "{":
            self.at -= 1
            self.group("{", "}")
            found = ("var", "_")
        elif word == "∥":
            found = self.term()
            self.at += 1
        else:
            found = ("var", word)
        while self.peek() and self.peek()[0] == "." and len(self.peek()) > 1:
            for field in self.take()[1:].split("."):
                found = ("proj", found, field)
        return found

    def list_to(self, end):
        found = []
        while self.peek() != end:
            found.append(self.term())
            if self.peek() == ":":
                self.take()
                self.term()
            if self.peek() == ",":
                self.take()
        self.take(end)
        return found

    def fields(self):
        self.take("{")
        found = {}
        while self.peek() != "}":
            name = self.take()
            self.take("=")
            found[name] = self.term()
            if self.peek() == ";":
                self.take()
        self.take("}")
        return found


def parse(text):
    parser = Parser(tokens_of(text))
    found = parser.term()
    if parser.peek() is not None:
        raise ValueError(f"left over: {parser.tokens[parser.at:parser.at + 8]}")
    return found
