"""What the checker is asked: one equation for each stored answer or call, closed by computing (SPECIFICATION 1.4)."""
from answers.stored import words_of

LINE = 60     # numbers to a line of a list
READ = 440    # bytes of the longest sheet that is handed to `read`
LONG = 5000   # words of a result that is long


def literal(values):
    """A list of numbers, folded into lines."""
    lines = [' ∷ '.join(map(str, values[at:at + LINE])) for at in range(0, len(values), LINE)]
    return ' ∷\n      '.join(lines + ['[]'])


def sheet_term(sheet):
    if len(sheet) % 4:
        return f'({literal(list(sheet))})'
    return f'(bytes ({literal(words_of(sheet))}))'


def answer_term(stored):
    if stored.refused is not None:
        return f'refusal {stored.refused}'
    return (f'answer {stored.plans} {stored.steps} ({literal(stored.result)})'
            f' ({literal(stored.trail)})')


def lists_term(lists):
    return ' ∷ '.join([f'({literal(one)})' for one in lists] + ['[]'])


def node_term(node):
    return f'record {{ kind = {node[0]}; id = {node[1]} }}'


def asked_term(stored):
    """The computation: by `answer_to`, or from the tree of a sheet that is long for `read`."""
    if len(stored.sheet) <= READ or stored.refused in (1, 3, 4, 5, 6):
        return f'to {stored.reading} {sheet_term(stored.sheet)}'
    return f'from {stored.reading} ({literal(words_of(stored.sheet))})'


def answer_terms(stored):
    """What is computed, what is stored, and the test for their type. Of an answer that is not long its origins are
    asked too, and its clauses where a cycle is left."""
    asked, answer = asked_term(stored), answer_term(stored)
    if stored.refused is not None or len(stored.result) > LONG:
        return asked, answer, 'same_answer'
    nodes = ' ∷ '.join([node_term(node) for node in stored.origins] + ['[]'])
    origins = lists_term([node[2:] for node in stored.origins] + [[len(stored.origins)]])
    how = f'left {stored.reading}' if stored.clauses else 'joined'
    return f'{how} ({asked}) ({nodes})', f'whole ({answer}) ({lists_term(stored.clauses)}) ({origins})', 'same_whole'


def claim(index, asked, differs=False):
    """The declaration of one equation: what is computed is what is stored, or is shown to be something else."""
    computed, stored, same = asked.terms() if hasattr(asked, 'terms') else answer_terms(asked)
    text = f'{same} ({computed})\n  ({stored}) ≡ false' if differs else f'{computed}\n  ≡ {stored}'
    opened = f'to from call convert counted joined left blanked {same}'
    return f'a{index} : {text}\nunfolding {opened}\na{index} = refl\n\n'
