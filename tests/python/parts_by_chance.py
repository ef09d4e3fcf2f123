"""Random small instances of both formats, and random ways to cut them: what is easy to miss in the joining of logs, by chance."""
from setting import PACKAGE  # noqa: F401

from scuttle.instances import keeps_to
from scuttle.parts import Node, Split, Test
from scuttle.split import by_models, named, tree

# The most variables of an instance, and how many costs it has; and how often a model is guessed.
VARIABLES, COSTS = 7, (0, 1, 2, 2, 3, 3, 4)
GUESSES = 100


def instance_text(chance, is_clauses):
    """The text of an instance: clauses or statements."""
    return clauses_text(chance) if is_clauses else statements_text(chance)


def clauses_text(chance):
    """Hard and soft clauses, in any order: empty ones, repeated and opposite literals, and weights 0 among them."""
    count = chance.randint(1, VARIABLES)

    def literals(lengths):
        return ''.join('%d ' % (chance.choice((-1, 1)) * chance.randint(1, count)) for _ in range(chance.choice(lengths)))
    lines = ['h %s0' % literals((1, 2, 2, 3, 3, 4)) for _ in range(chance.randint(0, 6))]
    for k in range(1, chance.choice(COSTS) + 1):
        lines += ['o%d %d %s0' % (k, chance.choice((0, 1, 1, 2, 3, 7)), literals((0, 1, 1, 2, 2, 3))) for _ in range(chance.randint(0, 5))]
    chance.shuffle(lines)
    return ''.join(line + '\n' for line in lines)


def statements_text(chance):
    """Statements of all relations: coefficients below 0 and of 0, repeated and opposite literals, and maximised costs among them."""
    count = chance.randint(1, VARIABLES)

    def terms(most):
        return ' '.join('%+d %sx%d' % (chance.choice((-4, -3, -2, -1, 0, 1, 1, 2, 3, 5)), chance.choice(('', '~')), chance.randint(1, count))
                        for _ in range(chance.randint(0, most)))
    lines = ['%s: %s ;' % (chance.choice(('min', 'min', 'max')), terms(6)) for _ in range(chance.choice(COSTS))]
    lines += ['%s %s %d ;' % (terms(5), chance.choice(('>=', '<=', '>=', '<=', '=')), chance.randint(-3, 4)) for _ in range(chance.randint(0, 4))]
    return ''.join(line + '\n' for line in lines)


def random_models(chance, source, count):
    """So many models of the normal form at most, by many guesses."""
    models = []
    for _ in range(GUESSES):
        model = [chance.choice((-1, 1)) * variable for variable in range(1, source.variables + 1)]
        if len(models) < count and all(keeps_to(row, model) for row in source.statements.rows):
            models.append(model)
    return models


def random_split(chance, source, folder, parts):
    """A tree of so many parts at most: what any models leave, slabs of one cost with any bounds, some of them out of reach, cubes, or both
    in turn."""
    kinds = ['variable'] * bool(source.instance.variables) + ['cost'] * bool(source.costs)
    if not kinds:
        return Split(source, folder, Node('part-1'))
    if source.costs and chance.random() < 0.5:
        models = random_models(chance, source, parts)
        return Split(source, folder, named(by_models(source, chance.randint(1, len(source.costs)), models, parts)))
    if source.costs and chance.random() < 0.5:
        cost = chance.randint(1, len(source.costs))
        bounds = {chance.randint(1, source.costs[cost - 1].most + 2) for _ in range(parts - 1)}
        return Split(source, folder, named(tree([Test('cost', cost, bound) for bound in sorted(bounds)])))
    root = Node()
    for _ in range(parts - 1):
        node, path = chance.choice([(node, path) for node, path in root.walk() if not node.children])
        kind = chance.choice(kinds)
        number = chance.randint(1, source.instance.variables if kind == 'variable' else len(source.costs))
        test = Test(kind, number, 1 if kind == 'variable' else chance.randint(1, source.costs[number - 1].most + 1))
        if test not in [condition.test for condition in path]:
            node.cut(test, Node(), Node())
    return Split(source, folder, named(root))
