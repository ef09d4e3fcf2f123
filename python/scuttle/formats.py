"""One reader of the three formats for all: instances, lists and logs, and the names that an instance's comments give.

Every reader raises `Malformed` with the number of the first line that is wrong. docs/FORMATS.md has the formats.
"""
from .commands import BAD_INPUT, NO_FILE, USAGE, run_command, usage
from .dominance import as_good, best_of, is_as_good, senses_of
from .errors import Malformed
from .files import read_lines, write_text
from .instances import (Instance, Names, Objective, Row, costs_of, instance_of, is_clauses, keeps_to, name_of_objective, name_of_variable,
                        names_of, read_instance, read_named, read_names)
from .lists import Choice, Entry, Listing, fits, read_list, read_models, text_of
from .logs import is_log_head, model_at, model_of, models_of

main = run_command
lines_of = read_lines

__all__ = ['BAD_INPUT', 'NO_FILE', 'USAGE', 'run_command', 'main', 'usage', 'as_good', 'best_of', 'is_as_good', 'senses_of', 'Malformed',
           'read_lines', 'lines_of', 'write_text', 'Instance', 'Names', 'Objective', 'Row', 'costs_of', 'instance_of', 'is_clauses',
           'keeps_to', 'name_of_objective', 'name_of_variable', 'names_of', 'read_instance', 'read_named', 'read_names', 'Choice', 'Entry',
           'Listing', 'fits', 'read_list', 'read_models', 'text_of', 'is_log_head', 'model_at', 'model_of', 'models_of']
