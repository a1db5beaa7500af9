"""Tasks in the text form, translated for an answer-set planner (gringo and clasp).

A predicate P becomes the relation pP, with a last argument for the time unless no step changes it; a schema S becomes
sS, a step of it at a time. Texts are those that the program `split` accepted or printed, so their form is not judged.
"""

from dataclasses import dataclass, field


@dataclass(frozen=True)
class Atom:
    predicate: int
    arguments: tuple


@dataclass
class Schema:
    parameters: int
    differ: list = field(default_factory=list)
    pre: list = field(default_factory=list)
    add: list = field(default_factory=list)
    delete: list = field(default_factory=list)
    parts: int = 1


@dataclass
class Task:
    objects: int = 0
    arities: list = field(default_factory=list)
    schemas: list = field(default_factory=list)
    init: list = field(default_factory=list)
    goal: list = field(default_factory=list)

    def widest(self):
        """The most parameters that a schema has."""
        return max((schema.parameters for schema in self.schemas), default=0)

    def average(self):
        """How many parameters the schemas have on average."""
        return sum(schema.parameters for schema in self.schemas) / max(1, len(self.schemas))

    def changing(self):
        """The predicates that some step adds or deletes."""
        return {atom.predicate for schema in self.schemas for atom in schema.add + schema.delete}


def numbers(body):
    return tuple(int(number) for number in body.split(",") if number)


def read(text):
    """The task of a text."""
    task = Task()
    for line in text.splitlines():
        key, body = line.split("=")
        if key in ("pre", "add", "del", "init", "goal"):
            predicate, arguments = body.split(":")
            atom = Atom(int(predicate), numbers(arguments))
        if key == "objects":
            task.objects = int(body)
        elif key == "arity":
            task.arities = list(numbers(body))
        elif key == "schema":
            task.schemas.append(Schema(int(body)))
        elif key == "differ":
            task.schemas[-1].differ.append(numbers(body))
        elif key == "pre":
            task.schemas[-1].pre.append(atom)
        elif key == "add":
            task.schemas[-1].add.append(atom)
        elif key == "del":
            task.schemas[-1].delete.append(atom)
        elif key == "part":
            task.schemas[-1].parts = max(numbers(body)) + 1
        elif key == "init":
            task.init.append(atom)
        elif key == "goal":
            task.goal.append(atom)
    return task


def term(name, *arguments):
    return f"{name}({','.join(map(str, arguments))})" if arguments else name


def variables(count):
    return [f"X{number}" for number in range(count)]


def lifted(schema, atom):
    """An atom's arguments in a rule: the variable of each parameter."""
    return [variables(schema.parameters)[number] for number in atom.arguments]


def choices(schema):
    """What a step's objects are beyond its preconditions: parameters that stand in none range over all objects, and
    those of a pair differ."""
    bound = {number for atom in schema.pre for number in atom.arguments}
    unbound = [f"object(X{number})" for number in range(schema.parameters) if number not in bound]
    return unbound + [f"X{lower} != X{higher}" for lower, higher in schema.differ]


def rule(head, body):
    return f"{head} :- {', '.join(body)}." if body else f"{head}."


def reachable(task):
    """A program whose atoms sS are the steps that a grounding planner has to write out: those whose preconditions can
    be reached if nothing is ever deleted. The atoms lacking(G) number the goal atoms that then aren't."""
    lines = [f"object(0..{task.objects - 1})."]
    lines += [term(f"p{atom.predicate}", *atom.arguments) + "." for atom in task.init]
    for number, schema in enumerate(task.schemas):
        step = term(f"s{number}", *variables(schema.parameters))
        pre = [term(f"p{atom.predicate}", *lifted(schema, atom)) for atom in schema.pre]
        lines.append(rule(step, pre + choices(schema)))
        lines += [rule(term(f"p{atom.predicate}", *lifted(schema, atom)), [step]) for atom in schema.add]
    lines += [f"lacking({number}) :- not {term(f'p{atom.predicate}', *atom.arguments)}."
              for number, atom in enumerate(task.goal)]
    return "\n".join(lines) + "\n"


def planning(task):
    """A program whose answers are the plans of `horizon` steps: at each time one step, whose preconditions hold at the
    time before; its deletes go out, then its adds come in."""
    changing = task.changing()

    def at(atom, arguments, time):
        return term(f"p{atom.predicate}", *arguments, *([time] if atom.predicate in changing else []))

    lines = ["#const horizon = 1.", "#show.", "time(1..horizon).", f"object(0..{task.objects - 1})."]
    lines += [at(atom, atom.arguments, 0) + "." for atom in task.init]
    steps = []
    for number, schema in enumerate(task.schemas):
        step = term(f"s{number}", *variables(schema.parameters), "T")
        steps.append(term("", number, *variables(schema.parameters))[1:-1] + " : " + step)
        pre = [at(atom, lifted(schema, atom), "T-1") for atom in schema.pre]
        lines.append(rule("{ " + step + " }", ["time(T)"] + pre + choices(schema)))
        lines += [rule(at(atom, lifted(schema, atom), "T"), [step]) for atom in schema.add]
        lines += [rule(term(f"d{atom.predicate}", *lifted(schema, atom), "T"), [step]) for atom in schema.delete]
        lines.append(f"#show s{number}/{schema.parameters + 1}.")
    for predicate in sorted(changing):
        arguments = variables(task.arities[predicate])
        kept = [term(f"p{predicate}", *arguments, "T-1"), "not " + term(f"d{predicate}", *arguments, "T"), "time(T)"]
        lines.append(rule(term(f"p{predicate}", *arguments, "T"), kept))
    lines.append(f":- time(T), #count {{ {'; '.join(steps)} }} != 1.")
    lines += [f":- not {at(atom, atom.arguments, 'horizon')}." for atom in task.goal]
    return "\n".join(lines) + "\n"


def plan(answer):
    """The steps, in order of time, of an answer's atoms."""
    steps = []
    for text in answer:
        schema, arguments = text[1:].rstrip(")").split("(")
        *objects, time = numbers(arguments)
        steps.append((time, int(schema), objects))
    return [(schema, objects) for _, schema, objects in sorted(steps)]
