"""What the files of a crate declare: definitions and statements of an .antt file, functions and types of an .rt file.
A module of tools/moved and tools/check-docs."""
import re
from collections import namedtuple

# kind: unfoldable, abbrev, record, data, statement; fn, struct, enum, trait, const, type, impl
# name: of a function of an impl or a trait TYPE::NAME; an impl, where it has ghost items, is named by its head
# said: what is declared, without comments and proofs; equal texts are equal strings
Item = namedtuple('Item', 'kind name public said')

DECLARES = re.compile(r'((?:unfoldable|abbrev)\s+)?(pub\s+)?(?:(record|data)\s+(\S+)|([^\s:]+)\s*:(?:\s|$))')
PUB = r'^[ \t]*(pub(?:\([\w\s]+\))?\s+)?'
FUNCTION = re.compile(PUB + r'(?:(?:const|unsafe|extern\s+"C")\s+)*fn\s+(\w+)', re.M)
TYPE = re.compile(PUB + r'(struct|enum|trait|const|type)\s+(?!fn\b)(\w+)', re.M)
AROUND = re.compile(PUB + r'(impl\b(?:<[^{]*?>)?|trait)\s+([^{;]+?)\s*\{', re.M)


def plain(text):
    return ' '.join(text.split())


def code_lines(text):
    """The lines of an .antt text without comments, each with its indentation."""
    lines = (re.sub(r'(^|\s)--(?=\s|-|$).*', '', line).rstrip() for line in text.split('\n'))
    return [(len(line) - len(line.lstrip()), line.lstrip()) for line in lines if line]


def without_uses(text):
    """An .antt text without comments, `use` and `mod` lines."""
    text = '\n'.join(' ' * at + line for at, line in code_lines(text))
    return re.sub(r'(?m)^(pub )?(mod \S+|use [^{\n]*(\{[^}]*\})?( as \S+)?)$', '', text)


def blocks(lines):
    """Each line of the outer indentation with the deeper ones that follow it."""
    at = 0
    while at < len(lines):
        end = at + 1
        while end < len(lines) and lines[end][0] > lines[at][0]:
            end += 1
        yield lines[at:end]
        at = end


def antt_items(text):
    """The items of an .antt file, those of its modules among them; a module's head is part of what they say."""
    found = []

    def take(lines, around):
        last = None
        for block in blocks(lines):
            first = block[0][1]
            words = [line for _, line in block]
            if re.match(r'(pub\s+)?(use|mod|ruleset)\s', first):
                last = None
            elif re.match(r'(pub\s+)?module\s', first):
                last = None
                head = next((n for n, line in enumerate(words, 1) if re.search(r'(^|\s)where$', line)), len(words))
                take(block[head:], around + words[:head])
            elif match := DECLARES.match(first):
                modifier, public, shape, shaped, named = match.groups()
                kind = shape or (modifier or 'statement').strip()
                last = [kind, shaped or named, bool(public), around + words]
                found.append(last)
            elif last and last[0] != 'statement':
                last[3] = last[3] + words

    take(code_lines(text), [])
    return [Item(kind, name, public, plain(' '.join(words))) for kind, name, public, words in found]


def balanced(text, at, opening, closing):
    """The place past the bracket that closes the one at a place."""
    depth = 0
    while at < len(text):
        depth += (text[at] == opening) - (text[at] == closing)
        at += 1
        if depth == 0:
            break
    return at


def contract(text, at):
    """A function's head and contract, from its `fn` on to its body."""
    end = balanced(text, text.index('(', at), '(', ')')
    while end < len(text) and text[end] not in '{;':
        if re.match(r'(requires|ensures)\b', text[end:]) and text[end - 1].isspace():
            end = balanced(text, text.index('{', end), '{', '}')
        elif text[end] == '[':
            end = balanced(text, end, '[', ']')
        else:
            end += 1
    return text[at:end]


def whole_type(text, at):
    """A type or a constant, up to the bracket or semicolon that ends it."""
    depth = 0
    for end in range(at, len(text)):
        depth += (text[end] in '{[(') - (text[end] in '}])')
        if depth == 0 and text[end] in '};':
            return text[at:end + 1]
    return text[at:]


def rt_items(text):
    """The functions of an .rt file with their contracts, its types and constants, and the ghost items of each impl."""
    text = re.sub(r'//.*', '', text)
    around = [(m.start(), balanced(text, m.end() - 1, '{', '}'), m.group(2), m.group(3)) for m in AROUND.finditer(text)]

    def named(match, name):
        """The name, behind that of the type or trait around it."""
        heads = [head for start, end, _, head in around if start < match.start() < end]
        return '::'.join([re.match(r'(?:.*\sfor\s+)?(\w*)', head, re.S).group(1) for head in heads[-1:]] + [name])

    found = [Item('fn', named(m, m.group(2)), bool(m.group(1)), plain(contract(text, m.start()))) for m in FUNCTION.finditer(text)]
    found += [Item(m.group(2), named(m, m.group(3)), bool(m.group(1)), plain(whole_type(text, m.start()))) for m in TYPE.finditer(text)]
    for start, end, kind, head in around:
        ghosts = re.findall(r'(?m)^[ \t]*(ghost (?!use\b)[^;]*;)', text[start:end])
        if kind != 'trait' and ghosts:
            found.append(Item('impl', plain(head), True, plain(' '.join(ghosts))))
    return found


def items(path, text):
    return antt_items(text) if path.endswith('.antt') else rt_items(text) if path.endswith('.rt') else []
