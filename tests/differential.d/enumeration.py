"""Fronts and models by trying every assignment. Nothing of the second checker's rules is used but what a model is and costs."""
import itertools


def models_of(instance):
    """All models with their costs."""
    found = []
    for signs in itertools.product((-1, 1), repeat=instance.variables):
        model = [sign * k for k, sign in enumerate(signs, 1)]
        if instance.is_model(model):
            found.append((instance.costs(model), model))
    return found


def weakly_dominates(instance, costs, others):
    return all(cost >= other if objective.maximised else cost <= other
               for cost, other, objective in zip(costs, others, instance.objectives))


def front_of(instance, models):
    """Each vector of the front with a model, in rising order."""
    least = {}
    for costs, model in models:
        least.setdefault(tuple(costs), model)
    return sorted((list(costs), model) for costs, model in least.items()
                  if not any(other != costs and weakly_dominates(instance, other, costs) for other in least))


def list_text(entries, word='COMPLETE'):
    """The text of a list."""
    lines = ['s %s %d' % (word, len(entries))]
    for costs, model in entries:
        lines += [' '.join(['o'] + [str(cost) for cost in costs]), ' '.join(['v'] + [str(l) for l in model] + ['0'])]
    return '\n'.join(lines) + '\n'
