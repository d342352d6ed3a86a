"""What tools/contracts and tools/functions share: reading the public functions of a source text, and the facts of their clauses."""
import re

# Outcomes that are left free on purpose, 'crate::function outcome': no clause can say what a reader that is not known gives.
ON_PURPOSE = [
    'streams::read_full the result',
    'streams::read_full `input`',
    'streams::read_full `buf`',
    'streams::next_text the result',
    'streams::next_text `input`',
    'streams::next_text `buf`',
]
# Outcomes of functions that lend a part of what is lent to them: what it holds in the end is what the borrower writes there.
LENT_ON = ['mechanism::lent `self`']

HEAD = re.compile(r'^[ \t]*pub[ \t]+(?:const[ \t]+)?(?:unsafe[ \t]+)?(?:extern[ \t]+"C"[ \t]+)?fn[ \t]+(\w+)', re.M)
IMPL = re.compile(r'^impl\b[^{;]*?(?:\bfor\s+)?(\w+)(?:<[^{;]*>)?\s*(?:where\b[^{;]*)?\{', re.M)
RESULT = re.compile(r'\s*(?:->\s*([^{};]*?)\s*)?(?:\bwhere\b[^{};]*?)?(?=\b(?:ghost|requires|ensures)\b|\{)')
CLAUSE = re.compile(r'\s*\b(ghost|requires|ensures)\b(\*?)[^{}]*\{')
LET = re.compile(r"let (\S+)(?: :[^=]*?)? = ")
# What a fact may not have beside its equation, outside brackets.
NO_EQUATION = re.compile(r"[→⊎↔∗¬λ∀∃:]|(?<![\w'.-])(?:if|then|else|elim|let|in|do|unfold|as)(?![\w'-])")
PAIRS = {'(': ')', '[': ']', '{': '}', '⌜': '⌝', '⟦': '⟧'}


def past(text, at):
    """The place behind the bracket that closes the one at `at`."""
    depth = 0
    for i in range(at, len(text)):
        depth += (text[i] == text[at]) - (text[i] == PAIRS[text[at]])
        if depth == 0:
            return i + 1
    return len(text)


def past_generics(text, at):
    """The place behind the `>` that closes the `<` at `at`; that of an arrow closes nothing."""
    depth = 0
    for i in range(at, len(text)):
        depth += (text[i] == '<') - (text[i] == '>' and text[i - 1] not in '-=')
        if depth == 0:
            return i + 1
    return len(text)


def split(text, mark, pairs=None):
    """The parts of a text between the marks that stand in no bracket."""
    pairs = pairs or PAIRS
    parts, depth, begun = [], 0, 0
    for i, c in enumerate(text):
        depth += (c in pairs) - (c in pairs.values() and not (c == '>' and text[i - 1] in '-='))
        if c == mark and depth == 0:
            parts.append(text[begun:i])
            begun = i + 1
    return parts + [text[begun:]]


def bare(term):
    """A term with single blanks and without brackets round the whole of it."""
    term = ' '.join(term.split())
    while term.startswith('(') and past(term, 0) == len(term):
        term = term[1:-1].strip()
    return term


def outside(term):
    """A term without what stands in brackets."""
    shown, at = '', 0
    while at < len(term):
        if term[at] in PAIRS:
            at = past(term, at)
            shown += '()'
        else:
            shown += term[at]
            at += 1
    return shown


def without_lets(term):
    """A clause with the term of each `let` in the place of its name."""
    term = bare(term)
    while (let := LET.match(term)) is not None:
        depth = 0
        for word in re.finditer(r"[()\[\]{}]|(?<![\w'.-])(?:let|in)(?![\w'-])", term[let.end():]):
            depth += (word.group() in '([{') - (word.group() in ')]}') + (word.group() == 'let') - (word.group() == 'in' and depth > 0)
            if word.group() == 'in' and depth == 0:
                break
        else:
            return ''
        given, rest = term[let.end():let.end() + word.start()].strip(), term[let.end() + word.end():]
        term = bare(re.sub(rf"(?<![\w'.-]){re.escape(let.group(1))}(?![\w'-])", lambda _: f'({given})', rest))
    return term


def facts(text):
    """The facts of a clause that `×` joins, those that stand under something else or speak of a bound name left out."""
    text = without_lets(text)
    parts = split(text, '×')
    if NO_EQUATION.search(outside(text)) or any(re.search(r'[:]', outside(bare(part))) for part in parts):
        return []
    return [text] if len(parts) == 1 else [fact for part in parts for fact in facts(part)]


def arguments(term):
    """A call's head and arguments."""
    words, at = [], 0
    while at < len(term):
        end = past(term, at) if term[at] in PAIRS else at
        end += len(re.match(r'[^\s(\[{]*', term[end:]).group())
        words.append(term[at:end])
        at = end + len(term[end:]) - len(term[end:].lstrip())
    return words


def contract(text, at):
    """The parameters of a function whose name ends at `at`, the type of its result and its clauses, or nothing where they cannot be read."""
    if text[at:at + 1] == '<':
        at = past_generics(text, at)
    opened = re.compile(r'\s*\(').match(text, at)
    end = past(text, opened.end() - 1) if opened else None
    result = RESULT.match(text, end) if opened else None
    if result is None:
        return None
    clauses, at = [], result.end()
    while (clause := CLAUSE.match(text, at)) is not None:
        at = past(text, clause.end() - 1)
        clauses.append((clause.group(1) + clause.group(2), text[clause.end():at - 1].strip()))
    is_whole = re.compile(r'\s*\{').match(text, at)
    return (text[opened.end():end - 1], ' '.join((result.group(1) or '').split()), clauses) if is_whole else None


def without_comments(text):
    """A source text with blanks for its comments."""
    return re.sub(r'//[^\n]*', lambda m: ' ' * len(m.group()), text)


def public_functions(text):
    """Each public function of a source text without comments, `main` apart: its name, where that stands, the type whose `impl` it stands in or '',
    and its parameters, the type of its result and its clauses, or None where these cannot be read."""
    for head in HEAD.finditer(text):
        if head.group(1) != 'main':
            owner = [t.group(1) for t in IMPL.finditer(text) if t.start() < head.start() < past(text, t.end() - 1)]
            yield head.group(1), head.start(1), owner[-1] if owner else '', contract(text, head.end())
