#!/usr/bin/env python3
"""A second, plain and slow judge of proofs: `scripts/second_judge.py FILE PROOF` prints what `pbcheck` has to print.

It was written from the rules in docs/proof-format.md and shares no line with the program; `scripts/differential` compares the two. The
file is read by scripts/second_reader.py, and a bad one is answered with its fault."""
import copy, sys

sys.dont_write_bytecode = True
from second_reader import ProblemFault, is_integer, is_name, read, text_of, tokens

LIMIT = 1 << 120
CODES = {
    "BadHeader": 1, "BadCount": 2, "UnknownRule": 3, "RuleLeftOut": 4, "BadLine": 5, "Truncated": 6, "TextAfterEnd": 7, "IntegerTooLarge": 8,
    "DeadId": 10, "StackShape": 11, "BadFactor": 12, "TooLarge": 13, "NotShown": 14, "GoalOpen": 15,
    "GoalOpenSelf": 16, "GoalOpenObjective": 17, "SolutionFalse": 18, "SolutionPartial": 19, "SolutionConflict": 20,
    "NotImproving": 21, "NoObjective": 22, "LowerNotShown": 24, "LowerAboveBest": 25, "UpperNotLogged": 26, "SolutionLogged": 27,
    "GoalUnknown": 32, "GoalNotClosed": 33,
}

# A literal is (name, negated), a signed term (coefficient, name, negated), a normal constraint (coefficients by literal, degree), a
# witness a map from names to literals, 0 or 1.


class Fault(Exception):
    pass


# Lines, and what they say.

SYMBOLS = (";", ":", ">=", "<=", "=", "->", "<", ">")
RULES = {"pol": "pol", "p": "pol", "rup": "rup", "u": "rup", "red": "red", "sol": "sol", "soli": "soli", "del": "del",
         "proofgoal": "proofgoal", "end": "end"}
LEFT_OUT = ("dom", "pre_order", "load_order", "obju", "solx", "core", "begin", "e", "ea", "i", "ia", "setlvl", "wiplvl", "delc", "deld")
FRAME = ("pseudo-Boolean", "f", "output", "conclusion")
PLACES = {
    "outside": ("pol", "rup", "red", "sol", "soli", "del"),
    "block": ("pol", "rup", "proofgoal", "end"),
    "goal": ("pol", "rup", "end"),
}


def integer(word):
    if not is_integer(word):
        raise Fault("BadLine")
    if abs(int(word)) > LIMIT:
        raise Fault("IntegerTooLarge")
    return int(word)


def literal(word):
    if not is_name(word.removeprefix("~")):
        raise Fault("BadLine")
    return word.removeprefix("~"), word.startswith("~")


def closed(words):
    """The words before a closing `;`, which may be missing."""
    return words[:-1] if words and words[-1] == ";" else words


def first_semicolon(words):
    """What stands before and behind the first `;`; none behind where there is none."""
    return (words[: words.index(";")], words[words.index(";") + 1 :]) if ";" in words else (words, None)


def items_read(words):
    """The items of a `pol` line."""
    items, at = [], 0
    while at < len(words):
        word, behind = words[at], words[at + 1] if at + 1 < len(words) else None
        if is_integer(word):
            kind = {"*": "*", "d": "d"}.get(behind, "id")
            items.append((kind, integer(word)))
        elif is_name(word) and behind == "w":
            kind = "w"
            items.append((kind, word))
        elif word in ("+", "s"):
            kind = word
            items.append((kind, None))
        else:
            kind = "literal"
            items.append((kind, literal(word)))
        at += 2 if kind in ("*", "d", "w") else 1
    return items


def constraint_read(words):
    """The terms and the right side of a written constraint, and what stands behind its `;`."""
    terms, words = [], words + [""]
    while is_integer(words[0]):
        coef = integer(words[0])
        terms.append((coef, *literal(words[1])))
        words = words[2:]
    if words[0] in ("=", "<="):
        raise Fault("RuleLeftOut")
    if words[0] != ">=":
        raise Fault("BadLine")
    right = integer(words[1])
    if words[2] != ";":
        raise Fault("BadLine")
    return (terms, right), words[3:-1]


def witness_read(words):
    """Names and images in turn."""
    witness = {}
    while words:
        if not is_name(words[0]) or words[0] in witness:
            raise Fault("BadLine")
        name, words = words[0], words[1:]
        words = words[1:] if words and words[0] == "->" else words
        if not words:
            raise Fault("BadLine")
        witness[name] = int(words[0]) if words[0] in ("0", "1") else literal(words[0])
        words = words[1:]
    return witness


def red_read(words):
    constraint, behind = constraint_read(words)
    images, behind = first_semicolon(behind)
    witness = witness_read(images)
    if not behind:
        return "red", (constraint, witness)
    if closed(behind) != ["begin"]:
        raise Fault("BadLine")
    return "begin", (constraint, witness)


def goal_read(words):
    if len(words) == 0:
        raise Fault("BadLine")
    goal = words[0] if words[0] in ("#1", "#2") else integer(words[0])
    if len(words) > 1:
        raise Fault("BadLine")
    return goal


def deletion_read(words):
    if words[:1] in (["range"], ["spec"]):
        raise Fault("RuleLeftOut")
    if words[:1] != ["id"]:
        raise Fault("BadLine")
    return list(map(integer, closed(words[1:])))


def end_read(words):
    """The id behind `end` is read and not kept."""
    if words:
        integer(words[0])
    if len(words) > 1:
        raise Fault("BadLine")


def step_read(words, place):
    """What the words of a line say among the steps: its rule, and what that is about."""
    rule = RULES.get(words[0])
    if rule is None:
        if words[0] in SYMBOLS or words[0] in FRAME:
            raise Fault("BadLine")
        raise Fault("RuleLeftOut" if words[0] in LEFT_OUT else "UnknownRule")
    numbered = len(words) > 1 and is_integer(words[1])
    if rule not in PLACES[place] or (rule == "end" and place == "block" and numbered):
        raise Fault("BadLine")
    behind = words[1:]
    if rule == "pol":
        return rule, items_read(closed(behind))
    if rule == "rup":
        return rule, constraint_read(behind)[0]
    if rule == "red":
        return red_read(behind)
    if rule == "proofgoal":
        return rule, goal_read(closed(behind))
    if rule == "end":
        return rule, end_read(closed(behind))
    return rule, deletion_read(behind) if rule == "del" else list(map(literal, closed(behind)))


def hint_read(words):
    """The literals behind a `:`, where there is one."""
    if not words:
        return None
    if words[0] != ":":
        raise Fault("BadLine")
    return list(map(literal, words[1:]))


def bound_read(words, spellings):
    if not words:
        raise Fault("BadLine")
    return words[0] if words[0] in spellings else integer(words[0])


def conclusion_read(words):
    """What a conclusion says: its kind, a lower and an upper bound, and a hint."""
    words = closed(words)
    if words[:1] != ["conclusion"] or len(words) < 2 or words[1] not in ("NONE", "SAT", "UNSAT", "BOUNDS"):
        raise Fault("BadLine")
    kind, behind = words[1], words[2:]
    if kind == "SAT":
        return kind, None, None, hint_read(behind)
    if kind == "BOUNDS":
        lower, behind = bound_read(behind, ("-INF", "INF")), behind[1:]
        if behind[:1] == [":"]:
            bound_read(behind[1:], ())
            behind = behind[2:]
        upper = bound_read(behind, ("INF",))
        return kind, lower, upper, hint_read(behind[1:])
    if kind == "UNSAT" and behind[:1] == [":"]:
        bound_read(behind[1:], ())
        behind = behind[2:]
    if behind:
        raise Fault("BadLine")
    return kind, None, None, None


# Constraints.


def opposite(literal):
    return literal[0], not literal[1]


def normal(terms, right):
    """The normal form of `terms >= right`."""
    net = {}
    for coef, name, negated in terms:
        right -= coef if negated else 0
        net[name] = net.get(name, 0) + (-coef if negated else coef)
    right += sum(-coef for coef in net.values() if coef < 0)
    return {(name, coef < 0): abs(coef) for name, coef in net.items() if coef}, max(0, right)


def fits(constraint):
    return sum(constraint[0].values()) <= LIMIT and constraint[1] <= LIMIT


def negation(constraint):
    coefs, degree = constraint
    return {opposite(l): c for l, c in coefs.items()}, max(0, sum(coefs.values()) + 1 - degree)


def propagated(constraints, listing):
    """The literals that are given or forced, or None where some constraint has negative slack."""
    literals, more = set(listing), True
    while more:
        more = False
        for coefs, degree in constraints:
            slack = sum(c for l, c in coefs.items() if opposite(l) not in literals) - degree
            if slack < 0:
                return None
            for l, c in coefs.items():
                if c > slack and l not in literals and opposite(l) not in literals:
                    literals.add(l)
                    more = True
    return literals


def covers(one, other):
    excess = sum(max(0, c - other[0].get(l, 0)) for l, c in one[0].items())
    return other[1] + excess <= one[1]


def is_shown(constraints, constraint):
    return (constraint[1] == 0 or any(covers(e, constraint) for e in constraints)
            or propagated(constraints + [negation(constraint)], []) is None)


def added(one, other):
    coefs, degree = dict(one[0]), one[1] + other[1]
    for l, c in other[0].items():
        cancelled = min(coefs.get(opposite(l), 0), c)
        degree -= cancelled
        coefs[l] = coefs.get(l, 0) + c - cancelled
        if cancelled:
            coefs[opposite(l)] -= cancelled
    return {l: c for l, c in coefs.items() if c}, max(0, degree)


def weakened(constraint, name):
    coefs, degree = dict(constraint[0]), constraint[1]
    for l in ((name, False), (name, True)):
        degree -= coefs.pop(l, 0)
    return coefs, max(0, degree)


def with_images(terms, witness):
    """The terms with images put in, and what those come to whose image is 0 or 1."""
    left, constant = [], 0
    for coef, name, negated in terms:
        image = witness.get(name, (name, False))
        if image in (0, 1):
            constant += coef * (image != negated)
        else:
            left.append((coef, image[0], image[1] != negated))
    return left, constant


def under(constraint, witness):
    terms, constant = with_images([(c, v, n) for (v, n), c in constraint[0].items()], witness)
    return normal(terms, constraint[1] - constant)


def admitted(terms, right):
    constraint = normal(terms, right)
    if sum(abs(c) for c, _, _ in terms) > LIMIT or not fits(constraint):
        raise Fault("TooLarge")
    return constraint


ABSURD = {}, 1


# Proofs.


class Block:
    """An open block: what it is to add, under which witness, the id of that one's negation, the goals that were opened, and the id of the
    negation of the open one, if there is one."""

    def __init__(self, constraint, witness, first):
        self.constraint, self.witness, self.first, self.opened, self.goal = constraint, witness, first, set(), None

    def copy(self):
        made = copy.copy(self)
        made.opened = set(self.opened)
        return made


class Judge:
    """The state of a proof."""

    def __init__(self, names, objective, constraints):
        self.names, self.objective, self.file = names, objective, constraints
        self.live, self.next_id, self.logged, self.least, self.block = {}, 1, [], None, None
        self.section, self.conclusion, self.best = "header", None, None
        for terms, relation, right in constraints:
            self.push(normal(terms, right))
            if relation == "=":
                self.push(normal([(-c, v, n) for c, v, n in terms], -right))
        self.file_ids = self.next_id - 1

    def copy(self):
        made = copy.copy(self)
        made.live, made.logged = dict(self.live), list(self.logged)
        made.block = self.block and self.block.copy()
        return made

    def place(self):
        return "outside" if self.block is None else "block" if self.block.goal is None else "goal"

    def push(self, constraint):
        self.live[self.next_id] = constraint
        self.next_id += 1

    def id_of(self, number):
        return number if number >= 0 else self.next_id + number

    def given(self):
        return list(self.live.values())

    # Solutions.

    def worth(self, solution):
        return sum(c for c, v, n in self.objective or [] if solution[v] != n)

    def satisfies(self, solution):
        sums = ((sum(c for c, v, n in terms if solution[v] != n), relation, right) for terms, relation, right in self.file)
        return all(total >= right if relation == ">=" else total == right for total, relation, right in sums)

    def solution(self, listing):
        literals = set(listing)
        if any(opposite(l) in literals for l in literals):
            raise Fault("SolutionConflict")
        set_in = lambda ls: all((v, False) in ls or (v, True) in ls for v in self.names)
        if not set_in(literals):
            literals = propagated(self.given(), literals)
            if literals is None:
                raise Fault("SolutionConflict")
            if not set_in(literals):
                raise Fault("SolutionPartial")
        solution = {v: (v, False) in literals for v in self.names}
        if not self.satisfies(solution):
            raise Fault("SolutionFalse")
        return solution

    def improve(self, listing):
        if self.objective is None:
            raise Fault("NoObjective")
        solution = self.solution(listing)
        if self.least is not None and self.worth(solution) >= self.least:
            raise Fault("NotImproving")
        self.logged.append(solution)
        self.least = self.worth(solution)
        self.push(normal([(-c, v, n) for c, v, n in self.objective], 1 - self.least))

    # Cutting planes.

    def item(self, stack, kind, value):
        wanted = {"id": 0, "literal": 0, "+": 2}.get(kind, 1)
        if kind == "id" and self.id_of(value) not in self.live:
            raise Fault("DeadId")
        if len(stack) < wanted:
            raise Fault("StackShape")
        if kind in ("*", "d") and value < 1:
            raise Fault("BadFactor")
        taken = [stack.pop() for _ in range(wanted)]
        if kind == "id":
            made = self.live[self.id_of(value)]
        elif kind == "literal":
            made = {value: 1}, 0
        elif kind == "+":
            made = added(taken[1], taken[0])
        elif kind == "*":
            made = {l: c * value for l, c in taken[0][0].items()}, taken[0][1] * value
        elif kind == "d":
            made = {l: -(-c // value) for l, c in taken[0][0].items()}, -(-taken[0][1] // value)
        elif kind == "s":
            made = {l: min(c, taken[0][1]) for l, c in taken[0][0].items() if taken[0][1]}, taken[0][1]
        else:
            made = weakened(taken[0], value)
        if not fits(made):
            raise Fault("TooLarge")
        stack.append(made)

    def value(self, items):
        """The constraint that the items of a `pol` line leave."""
        stack = []
        for item in items:
            self.item(stack, *item)
        if len(stack) != 1:
            raise Fault("StackShape")
        return stack[0]

    # Redundance.

    def asked(self, goal, constraint, witness):
        """What a goal asks for: that of a live constraint by its id, of the new one (`#1`), of the objective (`#2`)."""
        if goal == "#1":
            return under(constraint, witness)
        if goal == "#2":
            terms, constant = with_images(self.objective, witness)
            return normal(self.objective + [(-c, v, n) for c, v, n in terms], constant)
        return under(self.live[goal], witness)

    def goals(self, before):
        """The goals in their order: live constraints under ids below a number, the new one, the objective."""
        return [*sorted(it for it in self.live if it < before), "#1", *(["#2"] if self.objective is not None else [])]

    def judge_goals(self, given, goals, constraint, witness):
        for goal in goals:
            if not is_shown(given, self.asked(goal, constraint, witness)):
                raise Fault({"#1": "GoalOpenSelf", "#2": "GoalOpenObjective"}.get(goal, "GoalOpen"))

    def red(self, constraint, witness):
        self.judge_goals(self.given() + [negation(constraint)], self.goals(self.next_id), constraint, witness)
        self.push(constraint)

    def begin(self, constraint, witness):
        if not fits(negation(constraint)):
            raise Fault("TooLarge")
        self.block = Block(constraint, witness, self.next_id)
        self.push(negation(constraint))

    def unopened(self):
        """The goals of the open block that were not opened."""
        return [it for it in self.goals(self.block.first) if it not in self.block.opened]

    def open_goal(self, name):
        goal, block = name if name in ("#1", "#2") else self.id_of(name), self.block
        if goal not in self.unopened():
            raise Fault("GoalUnknown")
        denied = negation(self.asked(goal, block.constraint, block.witness))
        if not fits(denied):
            raise Fault("TooLarge")
        block.opened.add(goal)
        block.goal = self.next_id
        self.push(denied)

    def forget(self, first):
        """What came under this id and since is dead."""
        self.live = {id: constraint for id, constraint in self.live.items() if id < first}

    def end(self):
        block = self.block
        if block.goal is not None:
            if not is_shown(self.given(), ABSURD):
                raise Fault("GoalNotClosed")
            self.forget(block.goal)
            block.goal = None
        else:
            self.judge_goals(self.given(), self.unopened(), block.constraint, block.witness)
            self.forget(block.first)
            self.block = None
            self.push(block.constraint)

    # Steps.

    def delete(self, numbers):
        gone = set()
        for number in numbers:
            name = self.id_of(number)
            if name not in self.live or name in gone:
                raise Fault("DeadId")
            gone.add(name)
        for name in gone:
            del self.live[name]

    def rup(self, constraint):
        if not is_shown(self.given(), constraint):
            raise Fault("NotShown")
        self.push(constraint)

    def apply(self, kind, value):
        if kind == "pol":
            self.push(self.value(value))
        elif kind == "rup":
            self.rup(admitted(*value))
        elif kind == "red":
            self.red(admitted(*value[0]), value[1])
        elif kind == "begin":
            self.begin(admitted(*value[0]), value[1])
        elif kind == "proofgoal":
            self.open_goal(value)
        elif kind == "end":
            self.end()
        elif kind == "sol":
            self.logged.append(self.solution(value))
        elif kind == "soli":
            self.improve(value)
        else:
            self.delete(value)

    # Conclusions.

    def exhausted(self, logged):
        if logged:
            raise Fault("SolutionLogged")
        if not is_shown(self.given(), ABSURD):
            raise Fault("LowerNotShown")

    def lower(self, bound, logged):
        if bound == "INF":
            self.exhausted(logged)
        elif bound != "-INF":
            if self.least is not None and bound > self.least:
                raise Fault("LowerAboveBest")
            constraint = normal(self.objective, bound)
            if not fits(constraint):
                raise Fault("TooLarge")
            if not is_shown(self.given(), constraint):
                raise Fault("LowerNotShown")

    def conclude(self, kind, lower, upper, hint):
        """The best solution, the earliest among equals."""
        if kind == "BOUNDS" and self.objective is None:
            raise Fault("NoObjective")
        logged = self.logged + ([self.solution(hint)] if hint is not None else [])
        if kind == "UNSAT":
            self.exhausted(logged)
        if kind == "BOUNDS":
            self.lower(lower, logged)
            if upper != "INF" and not any(self.worth(g) <= upper for g in logged):
                raise Fault("UpperNotLogged")
        if kind == "SAT" and not logged:
            raise Fault("UpperNotLogged")
        self.conclusion, self.best = (kind, lower, upper), min(logged, key=self.worth, default=None)

    # Lines.

    def frame(self, words):
        """A line that is no step, at a section of its own."""
        if self.section == "header":
            if closed(words) != ["pseudo-Boolean", "proof", "version", "2.0"]:
                raise Fault("BadHeader")
            return "count"
        if self.section == "count":
            if len(closed(words)) != 2 or words[0] != "f" or not is_integer(words[1]) or int(words[1]) != self.file_ids:
                raise Fault("BadCount")
            return "steps"
        if self.section == "conclusion":
            self.conclude(*conclusion_read(words))
            return "end"
        if self.section == "after":
            raise Fault("TextAfterEnd")
        if closed(words) != ["end", "pseudo-Boolean", "proof"]:
            raise Fault("BadLine")
        return "after"

    def output(self, words):
        if words[1:] and words[1] != "NONE" and words[1] not in SYMBOLS:
            raise Fault("RuleLeftOut")
        if closed(words) != ["output", "NONE"]:
            raise Fault("BadLine")

    def line(self, text):
        """Judges one line."""
        words = tokens(text)
        if not words:
            return
        if self.section != "steps":
            self.section = self.frame(words)
        elif words[0] == "output" and self.block is None:
            self.output(words)
            self.section = "conclusion"
        else:
            self.apply(*step_read(words, self.place()))

    def accepts(self, text):
        """Whether this line is accepted next."""
        try:
            self.copy().line(text)
        except Fault:
            return False
        return True

    def over(self):
        """Judges that the text ends here."""
        if self.section != "after":
            raise Fault("Truncated")

    def printed(self):
        """What is printed of an accepted proof."""
        kind, lower, upper = self.conclusion
        bounds = f" {lower} {upper}" if kind == "BOUNDS" else ""
        values = "" if self.best is None else "v" + "".join(f" {'' if self.best[v] else '-'}{v}" for v in self.names) + "\n"
        return f"accepted {kind}{bounds}\n{values}"


def refused(line, fault):
    return f"refused line {line} code {CODES[str(fault)]} {fault}\n"


def judged(judge, proof):
    """What is printed of the text of a proof."""
    lines = proof.split("\n")
    for number, line in enumerate(lines, 1):
        try:
            judge.line(line)
        except Fault as fault:
            return refused(number, fault)
    try:
        judge.over()
    except Fault as fault:
        return refused(len(lines), fault)
    return judge.printed()


def printed_of(problem, proof):
    """What is printed of the texts of a problem and a proof."""
    try:
        return judged(Judge(*read(problem)), proof)
    except ProblemFault as fault:
        return fault.printed()


if __name__ == "__main__":
    print(printed_of(*map(text_of, sys.argv[1:3])), end="")
