#!/usr/bin/env python3
"""A second implementation of scripts, after docs/SCRIPTS.md, docs/RULES.md and docs/REFUSALS.md.

    reference.py [FILE]        reads the script from FILE or standard input and writes its answers to standard output

It is written to be compared with, not to be fast. Words are tuples of letters, lists are lists of pairs (word, coefficient), and
coefficients are the elements themselves: residues and integers as numbers, q-polynomials as numbers whose bit k belongs to q^k.
"""

import heapq
import re
import sys

INPUT_BYTES, LINE_BYTES, DEPTH = 65536, 1000, 15
LETTERS, WORD_LETTERS, TAIL_TERMS, TAIL_LETTERS = 8, 32, 8, 8
WORK_PLACES, RESULT_PLACES, STEPS = 512, 64, 1000000

LAYERS = {4: 1, 9: 1, 10: 1, 11: 2, 23: 2, 24: 2, 25: 2, 12: 4, 13: 4, 26: 4}  # all others: 3


class Refused(Exception):
    def __init__(self, number, step=0, a=0, b=0, e=0):
        self.number, self.places, self.triple = number, (step, a, b, e), (0, 0, 0)

    def answer(self, line):
        numbers = (self.number, LAYERS.get(self.number, 3), line) + self.places + self.triple
        return "(refused " + " ".join(map(str, numbers)) + ")"


# Coefficient rings: `value` gives the element of a writing or refuses 4, `text` the writing; the operations refuse 10. One is 1 in each.

DECIMAL = re.compile(rb"(0|[1-9][0-9]*)\Z")


class Residues:
    def __init__(self, modulus):
        if not 2 <= modulus <= 4294967295:
            raise Refused(9)
        self.modulus = modulus

    def value(self, text):
        if DECIMAL.match(text) and len(text) <= 10 and int(text) < self.modulus:
            return int(text)
        raise Refused(4)

    def text(self, a):
        return str(a)

    def add(self, a, b):
        return (a + b) % self.modulus

    def times(self, a, b):
        return a * b % self.modulus

    def negative(self, a):
        return -a % self.modulus


class Integers:
    GREATEST = 2147483647

    def fits(self, a):
        if abs(a) > self.GREATEST:
            raise Refused(10)
        return a

    def value(self, text):
        digits = text[1:] if text.startswith(b"-") else text
        if not DECIMAL.match(digits) or len(digits) > 10 or int(digits) > self.GREATEST or text == b"-0":
            raise Refused(4)
        return int(text)

    def text(self, a):
        return str(a)

    def add(self, a, b):
        return self.fits(a + b)

    def times(self, a, b):
        return self.fits(a * b)

    def negative(self, a):
        return self.fits(-a)


class QPolynomials:
    def value(self, text):
        if re.match(rb"(0|1[01]*)\Z", text) and len(text) <= 64:
            return int(text, 2)
        raise Refused(4)

    def text(self, a):
        return format(a, "b")

    def add(self, a, b):
        return a ^ b

    def times(self, a, b):
        product = 0
        while b:
            if b & 1:
                product ^= a
            a, b = a << 1, b >> 1
        if product >> 64:
            raise Refused(10)
        return product

    def negative(self, a):
        return a


# Words and orders.


def image(word):
    return tuple(word.count(letter) for letter in range(1, LETTERS + 1))


def inversions(word):
    count, seen = 0, [0] * (LETTERS + 1)
    for letter in word:
        count += sum(seen[letter + 1 :])
        seen[letter] += 1
    return count


def is_standard(word):
    return all(word[p] <= word[p + 1] for p in range(len(word) - 1))


def grown(word, letter):
    if not 1 <= letter <= LETTERS:
        raise Refused(2)
    if len(word) == WORD_LETTERS:
        raise Refused(11)
    return word + (letter,)


class Lex:
    def key(self, counts):
        return counts


class Degree:
    def __init__(self, weights):
        for weight in weights:
            if not 1 <= weight <= 255:
                raise Refused(9)
        self.weights = weights + [1] * (LETTERS - len(weights))

    def key(self, counts):
        return (sum(w * c for w, c in zip(self.weights, counts)),) + counts


class WorkList:
    """The kept list of a run: coefficients by word, and a heap that gives the greatest word."""

    def __init__(self, ring, order):
        self.ring, self.order = ring, order
        self.coefficients, self.heap = {}, []

    def insert(self, word, a):
        if a == 0:
            return
        if word in self.coefficients:
            total = self.ring.add(self.coefficients[word], a)
            if total == 0:
                del self.coefficients[word]
            else:
                self.coefficients[word] = total
            return
        if len(self.coefficients) == WORK_PLACES:
            raise Refused(23)
        self.coefficients[word] = a
        # smallest first in a heap, so the greatest word gets negatives; words of one image have one length
        key = self.order.key(image(word)) + (inversions(word),) + word
        heapq.heappush(self.heap, (tuple(-entry for entry in key), word))

    def insert_product(self, word, a, b):
        if len(word) > WORD_LETTERS:
            raise Refused(11)
        self.insert(word, self.ring.times(a, b))

    def take_greatest(self):
        while True:
            word = heapq.heappop(self.heap)[1]
            if word in self.coefficients:  # else it was removed when its coefficient became zero
                return word, self.coefficients.pop(word)


# Algebras.


class Algebra:
    def __init__(self, n, ring, order):
        self.n, self.ring, self.order = n, ring, order
        self.relations = {}  # (j, i) to (factor, tail), for the pairs that were declared
        self.closed = False
        self.verdict = None  # "(sound)" or "(degenerate i j k)"

    def relation(self, j, i):
        return self.relations.get((j, i), (1, []))

    def is_generator(self, letter):
        return 1 <= letter <= self.n

    def declare(self, j, i, factor, tail):
        if not self.is_generator(j) or not self.is_generator(i):
            raise Refused(2)
        if not i < j:
            raise Refused(3)
        if (j, i) in self.relations:
            raise Refused(20)
        if factor == 0:
            raise Refused(5)
        if len(tail) > TAIL_TERMS:
            raise Refused(6)
        bound = self.order.key(image((i, j)))
        before = None
        for place, (word, a) in enumerate(tail, 1):
            if not all(map(self.is_generator, word)):
                raise Refused(2, b=place)
            if len(word) > TAIL_LETTERS:
                raise Refused(6, b=place)
            # standard words have no inversions and differ in their images
            key = self.order.key(image(word))
            if a == 0 or not is_standard(word) or (before is not None and not key < before):
                raise Refused(7, b=place)
            if not key < bound:
                raise Refused(8, b=place)
            before = key
        self.relations[j, i] = (factor, tail)

    def run(self, load):
        """What is loaded comes as places (a, b, e), a word, and two coefficients to be multiplied."""
        work, result = WorkList(self.ring, self.order), []
        for (a, b, e), word, c, d in load:
            try:
                work.insert_product(word, c, d)
            except Refused as refused:
                raise Refused(refused.number, 0, a, b, e)
        step = 0
        while work.coefficients:
            if step == STEPS:
                raise Refused(25, STEPS)
            step += 1
            word, a = work.take_greatest()
            if is_standard(word):
                if len(result) == RESULT_PLACES:
                    raise Refused(24, step)
                result.append((word, a))
            else:
                self.rewrite(work, step, word, a)
        return result

    def rewrite(self, work, step, word, a):
        p = next(p for p in range(len(word) - 1) if word[p] > word[p + 1])
        u, j, i, v = word[:p], word[p], word[p + 1], word[p + 2 :]
        factor, tail = self.relation(j, i)
        for e, (t, c) in enumerate([((i, j), factor)] + tail):
            try:
                work.insert_product(u + t + v, a, c)
            except Refused as refused:
                raise Refused(refused.number, step, j, i, e)

    def overlap(self, i, j, k):
        def load():
            factor, tail = self.relation(k, j)
            for e, (t, c) in enumerate([((j, k), factor)] + tail):
                yield (1, 0, e), t + (i,), c, 1
            factor, tail = self.relation(j, i)
            for e, (t, c) in enumerate([((i, j), factor)] + tail):
                yield (2, 0, e), (k,) + t, self.ring.negative(c), 1

        return self.run(load())

    def decide(self):
        if self.verdict is None:
            self.verdict = self.decision()
        return self.verdict

    def decision(self):
        for i in range(1, self.n + 1):
            for j in range(i + 1, self.n + 1):
                for k in range(j + 1, self.n + 1):
                    try:
                        terms = self.overlap(i, j, k)
                    except Refused as refused:
                        refused.triple = (i, j, k)
                        raise
                    if terms:
                        return "(degenerate %d %d %d)" % (i, j, k)
        return "(sound)"

    def check(self, first, second=()):
        if self.verdict is None:
            raise Refused(21)
        if self.verdict != "(sound)":
            raise Refused(22)
        for place, (word, _) in enumerate(first, 1):
            if not all(map(self.is_generator, word)):
                raise Refused(2, a=place)
        for place, (word, _) in enumerate(second, 1):
            if not all(map(self.is_generator, word)):
                raise Refused(2, b=place)

    def normalise(self, terms):
        self.check(terms)
        return self.run(((a, 0, 0), w, c, 1) for a, (w, c) in enumerate(terms, 1))

    def sum(self, first, second):
        self.check(first, second)

        def load():
            for a, (w, c) in enumerate(first, 1):
                yield (a, 0, 0), w, c, 1
            for b, (w, c) in enumerate(second, 1):
                yield (0, b, 0), w, c, 1

        return self.run(load())

    def difference(self, first, second):
        return self.sum(first, [(w, self.ring.negative(c)) for w, c in second])

    def product(self, first, second):
        self.check(first, second)

        def load():
            for a, (v, c) in enumerate(first, 1):
                for b, (w, d) in enumerate(second, 1):
                    yield (a, b, 0), v + w, c, d

        return self.run(load())


# Reading. An expression is ("generator", number), ("coefficient", bytes), or an operator with the list of its operands.


class Reader:
    def __init__(self, line):
        self.line, self.at = line, 0

    def sees(self, wanted):
        return self.line.startswith(wanted, self.at)

    def takes(self, wanted):
        if self.sees(wanted):
            self.at += len(wanted)
            return True
        return False

    def expect(self, wanted):
        if not self.takes(wanted):
            raise Refused(12)

    def atom(self):
        found = re.compile(rb"[^ ()]+", re.DOTALL).match(self.line, self.at)
        if not found:
            raise Refused(12)
        self.at = found.end()
        return found.group()

    def number(self):
        text = self.atom()
        if not DECIMAL.match(text) or len(text) > 10:
            raise Refused(12)
        return int(text)

    def leaf(self):
        text = self.atom()
        if text[:1] == b"x" and DECIMAL.match(text[1:]) and len(text) <= 11:
            return ("generator", int(text[1:]))
        return ("coefficient", text)

    def leaf_of(self, wanted):
        sort, value = self.leaf()
        if sort != wanted:
            raise Refused(12)
        return value

    def form(self):
        form = self.form_here()
        if self.at != len(self.line):
            raise Refused(12)
        return form

    def form_here(self):
        if self.takes(b"(algebra "):
            n = self.number()
            self.expect(b" ")
            ring = self.ring()
            self.expect(b" ")
            order = self.order()
            self.expect(b")")
            return ("algebra", n, ring, order)
        if self.takes(b"(rel "):
            j = self.number()
            self.expect(b" ")
            i = self.number()
            self.expect(b" ")
            factor = self.leaf_of("coefficient")
            tail = []
            while self.takes(b" "):
                tail.append(self.term())
            self.expect(b")")
            return ("rel", j, i, factor, tail)
        if self.takes(b"(decide)"):
            return ("decide",)
        self.expect(b"(calc ")
        expression = self.expression(0)
        self.expect(b")")
        return ("calc", expression)

    def ring(self):
        if self.takes(b"(int)"):
            return ("int",)
        if self.takes(b"(qpoly)"):
            return ("qpoly",)
        self.expect(b"(mod ")
        modulus = self.number()
        self.expect(b")")
        return ("mod", modulus)

    def order(self):
        if self.takes(b"(lex)"):
            return None
        self.expect(b"(deg")
        weights = []
        while len(weights) < LETTERS and self.takes(b" "):
            weights.append(self.number())
        self.expect(b")")
        return weights

    def term(self):
        self.expect(b"(")
        coefficient, letters = self.leaf_of("coefficient"), []
        while self.takes(b" "):
            letters.append(self.leaf_of("generator"))
        self.expect(b")")
        return coefficient, letters

    def expression(self, depth):
        if not self.sees(b"("):
            return self.leaf()
        if depth == DEPTH:
            raise Refused(13)
        self.expect(b"(")
        operator = next((sign for sign in (b"+", b"*", b"-") if self.takes(sign)), None)
        if operator is None:
            raise Refused(12)
        self.expect(b" ")
        operands = [self.expression(depth + 1)]
        if operator == b"-":
            self.expect(b" ")
            operands.append(self.expression(depth + 1))
        else:
            while self.takes(b" "):
                operands.append(self.expression(depth + 1))
        self.expect(b")")
        return (operator, operands)


# Sessions.


class Session:
    def __init__(self):
        self.algebra = None

    def answer(self, line):
        """The answer to a line, without its line end; or a refusal."""
        if len(line) > LINE_BYTES:
            raise Refused(13)
        form = Reader(line).form()
        name, parts = form[0], form[1:]
        if name not in self.in_turn():
            raise Refused(26)
        calls = {"algebra": self.open, "rel": self.declare, "decide": self.decide, "calc": self.calculate}
        return calls[name](*parts)

    def in_turn(self):
        if self.algebra is None:
            return ("algebra",)
        return ("decide", "calc") if self.algebra.closed else ("rel", "decide")

    def open(self, n, ring, order):
        if not 1 <= n <= LETTERS:
            raise Refused(1)
        kinds = {"mod": Residues, "int": Integers, "qpoly": QPolynomials}
        ring = kinds[ring[0]](*ring[1:])
        self.algebra = Algebra(n, ring, Lex() if order is None else Degree(order))
        return "(opened)"

    def declare(self, j, i, factor, tail):
        ring = self.algebra.ring
        factor = ring.value(factor)
        coefficients = [ring.value(text) for text, _ in tail]
        words = []
        for _, letters in tail:
            word = ()
            for letter in letters:
                word = grown(word, letter)
            words.append(word)
        self.algebra.declare(j, i, factor, list(zip(words, coefficients)))
        return "(declared)"

    def decide(self):
        self.algebra.closed = True
        return self.algebra.decide()

    def calculate(self, expression):
        self.read_coefficients(expression)
        return self.text_of(self.worked_out(expression))

    def read_coefficients(self, expression):
        sort, value = expression
        if sort == "coefficient":
            self.algebra.ring.value(value)
        elif sort != "generator":
            for operand in value:
                self.read_coefficients(operand)

    def worked_out(self, expression):
        algebra = self.algebra
        sort, value = expression
        if sort == "generator":
            return algebra.normalise([(grown((), value), 1)])
        if sort == "coefficient":
            return algebra.normalise([((), algebra.ring.value(value))])
        join = {b"+": algebra.sum, b"*": algebra.product, b"-": algebra.difference}[sort]
        terms = self.worked_out(value[0])
        for operand in value[1:]:
            terms = join(terms, self.worked_out(operand))
        return terms

    def text_of(self, terms):
        parts = ["list"]
        for word, a in terms:
            parts.append("(" + " ".join([self.algebra.ring.text(a)] + ["x%d" % letter for letter in word]) + ")")
        return "(" + " ".join(parts) + ")"


def lines_of(script):
    lines = script.split(b"\n")
    return lines if lines[-1] else lines[:-1]


def answers(script):
    """The whole output for a whole input, bytes for bytes."""
    if len(script) > INPUT_BYTES:
        return (Refused(13).answer(0) + "\n").encode()
    session, output = Session(), []
    for line, text in enumerate(lines_of(script), 1):
        try:
            output.append(session.answer(text))
        except Refused as refused:
            output.append(refused.answer(line))
    return "".join(answer + "\n" for answer in output).encode()


if __name__ == "__main__":
    if len(sys.argv) > 1:
        with open(sys.argv[1], "rb") as file:
            source = file.read()
    else:
        source = sys.stdin.buffer.read()
    sys.stdout.buffer.write(answers(source))
