"""A docstring and a signature, cut into the sections of the reference: what it does, arguments,
returns, cost, elsewhere, raises.

The client's docstrings are prose, or have numpydoc's sections. A sentence of prose belongs to a
section by how it begins: "Cost:" to the cost, "networkx:" to the names elsewhere,
"Raises .." or the name of an exception to what is raised. Blocks that are indented stay code.
"""
import inspect
import re
from typing import Any, Callable, Dict, List, NamedTuple, Optional, Tuple

COST = re.compile(r'(Cost|Runs|Steps|Costs|Rounds|Limits):|(No|\d+) (runs?|jobs?|steps?)\b|(It|They) '
                  r'(costs?|takes?) |Costs? (are|as) |.*\bso are (the )?costs\b')
MORE_COST = re.compile(r'\b(runs?|steps?|jobs?|round trips?|batch(es)?)\b')
ELSEWHERE = re.compile(r'(GraphBLAS|LAGraph|networkx|igraph):|In (the '
                       r')?(GraphBLAS|LAGraph|networkx|python-graphblas|pandas|igraph)\b')
RAISES = re.compile(
    r'Raises |[A-Z]\w*(Error|Mismatch|Refused|Large)\b|NoPath\b|BlockFailed\b|NotSettled\b')
SENTENCE = re.compile(r'(?<=[.)])\s+(?=[A-Z`({~\d]|networkx:|igraph:)')
# what the client's types call "a matrix of the kind that was handed in"
VARIABLES = re.compile(r'\b(M|Made)\b')
SECTIONS = ('text', 'cost', 'elsewhere', 'raises')


class Argument(NamedTuple):
    """An argument as the reference shows it; `default` is None where it has to be given."""
    name: str
    kind: str
    default: Optional[str]


def sections_of(thing: Any) -> Dict[str, str]:
    """The sections of a docstring, each as Markdown; those that it has nothing for are empty."""
    found: Dict[str, List[str]] = {name: [] for name in SECTIONS}
    for paragraph in re.split(r'\n[ \t]*\n', without_heads(inspect.getdoc(thing) or '')):
        if paragraph.startswith((' ', '|', '- ')):
            found['text'].append(paragraph)
            continue
        for name, sentences in by_section(' '.join(paragraph.split())).items():
            if sentences:
                found[name].append(' '.join(sentences))
    joined = {name: ('\n\n' if name == 'text' else ' ').join(parts)
              for name, parts in found.items()}
    joined['cost'] = joined['cost'].replace('Cost: ', '')
    joined['raises'] = re.sub(r'(^|(?<=\. ))Raises ', '', joined['raises'])
    return joined


def without_heads(text: str) -> str:
    """A docstring with numpydoc's sections as prose: arguments as a list, what is returned and
    raised as sentences, examples as code."""
    parts = re.split(r'^(\w+(?: \w+)?)\n-{3,}\n', text, flags=re.M)
    out = [parts[0]]
    for head, body in zip(parts[1::2], parts[2::2]):
        out.append(BODIES.get(head, str.strip)(body.strip('\n')))
    return '\n\n'.join(out)


def entries_of(body: str) -> List[Tuple[str, str]]:
    """The entries of a section: what stands first, and what is said of it."""
    pairs = re.findall(r'^(\S.*)\n((?:(?:[ \t]+.*)?\n?)*?)(?=^\S|\Z)', body, re.M)
    return [(name, ' '.join(said.split())) for name, said in pairs]


def _list_entries(body: str) -> str:
    """The entries of a section as a list."""
    return '\n'.join('- `%s`: %s' % (name.split(' : ')[0], said)
                     for name, said in entries_of(body))


BODIES: Dict[str, Callable[[str], str]] = {
    'Parameters': _list_entries,
    'Attributes': _list_entries,
    'Returns': lambda body: '\n\n'.join('Returns: %s' % said for _, said in entries_of(body)),
    'Raises': lambda body: '\n\n'.join('Raises %s %s' % (name, said[:1].lower() + said[1:])
                                       for name, said in entries_of(body)),
    'See Also': lambda body: 'See also %s.' % ', '.join(
        '`%s`' % name for name in re.findall(r'^([\w.]+) :', body, re.M)),
    'Examples': lambda body: re.sub(r'^(?=.)', '    ', body, flags=re.M)}


def by_section(paragraph: str) -> Dict[str, List[str]]:
    """The sentences of a paragraph by their sections."""
    found: Dict[str, List[str]] = {name: [] for name in SECTIONS}
    last = 'text'
    for sentence in SENTENCE.split(paragraph):
        last = section_of(sentence, last)
        found[last].append(sentence)
    return found


def section_of(sentence: str, last: str) -> str:
    """The section that a sentence belongs to, behind one of the section `last`."""
    if COST.match(sentence):
        return 'cost'
    if ELSEWHERE.match(sentence):
        return 'elsewhere'
    if RAISES.match(sentence):
        return 'raises'
    return 'cost' if last == 'cost' and MORE_COST.search(sentence) else 'text'


def arguments_of(function: Callable[..., Any]) -> List[Argument]:
    """What a function or a class is called with."""
    marks = {inspect.Parameter.VAR_POSITIONAL: '*', inspect.Parameter.VAR_KEYWORD: '**'}
    return [Argument(marks.get(parameter.kind, '') + parameter.name, written(parameter.annotation),
                     default_of(parameter))
            for parameter in inspect.signature(function).parameters.values()
            if parameter.name not in ('self', 'cls')]


def default_of(parameter: inspect.Parameter) -> Optional[str]:
    """A parameter's default as one writes it: powers of two and large numbers by their powers,
    nothing of addresses."""
    value = parameter.default
    if value is parameter.empty:
        return None
    if isinstance(value, int) and not isinstance(value, bool) and value > 4096:
        power = value.bit_length() - 1
        return ('2**%d' % power if value == 1 << power else '10**%d' % (len(str(value)) - 1)
                if re.fullmatch('10*', str(value)) else str(value))
    return re.sub(r'<(\w+)[^>]*>', r'\1', repr(value))


def written(annotation: Any) -> str:
    """A type as one writes it, without the names of modules; '' where there is none."""
    if annotation is inspect.Signature.empty:
        return ''
    told = (annotation if isinstance(annotation, str) else getattr(annotation, '__name__', '')
            if inspect.isclass(annotation) else repr(annotation))
    bare = re.sub(r"\b[a-z_]+(?:\.[a-z_]+)*\.(?=[A-Za-z])", '',
                  told).replace("'", '').replace('NoneType', 'None')
    return VARIABLES.sub('Matrix', bare)


def returned(function: Callable[..., Any]) -> str:
    """The type that a function returns; '' where nothing says so."""
    return written(inspect.signature(function).return_annotation)


def called(name: str, arguments: List[Argument], function: Callable[..., Any]) -> str:
    """How it is called, without types."""
    parts: List[str] = []
    starred = False
    for argument, parameter in zip(arguments,
                                   [parameter
                                    for parameter in inspect.signature(function).parameters.values()
                                    if parameter.name not in ('self', 'cls')]):
        if parameter.kind is parameter.KEYWORD_ONLY and not starred:
            parts.append('*')
            starred = True
        starred = starred or parameter.kind is parameter.VAR_POSITIONAL
        parts.append(argument.name + ('' if argument.default is None else '=' + argument.default))
    return '%s(%s)' % (name, ', '.join(parts))


def table(arguments: List[Argument]) -> Tuple[str, ...]:
    """The rows of a table of arguments."""
    if not arguments:
        return ()
    rows = ['| `%s` | %s | %s |' % (argument.name, '`%s`' % argument.kind.replace('|', '\\|')
                                    if argument.kind else '', 'required' if argument.default is None
                                    and not argument.name.startswith('*')
                                    else '`%s`' % argument.default if argument.default is not None
                                    else '') for argument in arguments]
    return ('| Argument | Type | Default |', '|---|---|---|', *rows)
