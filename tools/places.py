#!/usr/bin/env python3
"""Lists the places where the code could take another form: tools/places.py [POINT] [--list].

Run at the top of the repository. For each of eight points it prints how many places the patterns below find in crates/*/src
(and for the last in crates/*/proofs), and with --list the places. A pattern only finds candidates: which of them is a place is
read off, and docs/DESIGN-PASS.md says it.
"""
import collections
import glob
import re
import sys

KEYWORDS = set('fn pub crate let mut match if else for in while loop return self Self impl struct enum use mod const where as true false'.split())
TOKEN = re.compile(r"b?'(?:\\.|[^'])'|\"[^\"]*\"|[A-Za-z_]\w*|\d[\w]*|[^\s\w]")


def sources():
    for path in sorted(glob.glob('crates/*/src/**/*.rt', recursive=True)):
        with open(path) as file:
            yield path, re.sub(r'(?m)//.*$', '', file.read())


def block(text, start):
    """The text from the brace at or after start to the brace that closes it."""
    at = text.index('{', start)
    depth = 0
    for i in range(at, len(text)):
        depth += {'{': 1, '}': -1}.get(text[i], 0)
        if depth == 0:
            return text[at:i + 1]
    return text[at:]


CLAUSE = re.compile(r'^\s*(requires|ensures|ghost)\b.*$')


def functions():
    """Each function: place, name, parameters, clauses, body."""
    for path, text in sources():
        for found in re.finditer(r'\bfn (\w+)', text):
            head = text[found.start():]
            lines = head.split('\n')
            clauses, signature, body_at, seen = [], [], None, 0
            for line in lines:
                if CLAUSE.match(line):
                    clauses.append(line.strip())
                elif line.strip().endswith('{') or re.search(r'\{.*\}\s*$', line):
                    body_at = seen + line.rindex('{') if line.strip().endswith('{') else seen + line.index('{')
                    signature.append(line)
                    break
                else:
                    signature.append(line)
                    if line.strip().endswith(';'):
                        break
                seen += len(line) + 1
            if body_at is None:
                continue
            yield f'{path}: {found.group(1)}', found.group(1), ' '.join(signature), clauses, block(head, body_at)


def shape(text):
    """The tokens, with every name, literal and type replaced by one sign each."""
    out = []
    for token in TOKEN.findall(text):
        if token in KEYWORDS:
            out.append(token)
        elif re.match(r'[A-Za-z_]', token):
            out.append('x')
        elif re.match(r"\d|b?'|\"", token):
            out.append('0')
        else:
            out.append(token)
    return re.sub(r'x( : : x)+', 'x', ' '.join(out))


def point_1():
    for path, text in sources():
        for found in re.finditer(r'\benum (\w+)[^{]*', text):
            body = block(text, found.start())
            variants = re.findall(r'(?m)^    (\w+)(\([^)]*\)|\s*\{)?,?', body)
            if len(variants) == 2 and sum(1 for _, load in variants if load) == 1:
                yield f'{path}: enum {found.group(1)} has the shape of Option'
        for found in re.finditer(r'\b(struct \w+|(?m:^    )\w+) \{', text):
            body = block(text, found.start())
            if re.search(r'\b(answered: bool|refusal: Option)', body) and 'fn' not in body and '=>' not in body and ';' not in body:
                yield f'{path}: {found.group(1).strip()} has a flag with a value beside it'
        for found in re.finditer(r'\b(kind|mark|code|header): u(8|16|32)\b', text):
            yield f'{path}: {found.group(0)}'
    for place, _, _, _, body in functions():
        if len(re.findall(r'\w+::\w+(?:\([^)]*\))?(?: \| \w+::\w+(?:\([^)]*\))?)* => \d', body)) >= 1 and 'Some(' not in body:
            yield f'{place}: from a kind to a number'
        if len(re.findall(r'(?m)^\s*\d\w*(?: \| \d\w*)* => (?:\w+::\w+|Some\(\w+::)', body)) >= 2:
            yield f'{place}: from a number to a kind'
        if re.search(r'\bif \w+(?:\([^)]*\))? \{\s*1\s*\} else \{\s*0\s*\}', body):
            yield f'{place}: a number for a flag'


def point_2():
    groups = collections.defaultdict(list)
    for place, _, _, _, body in functions():
        form = shape(body)
        if len(form.split()) >= 14 and '# [ test' not in form and '_tests/' not in place:
            groups[form].append(place)
    for places in groups.values():
        if len(places) > 1:
            yield ' = '.join(places)
    groups = collections.defaultdict(list)
    for path, text in sources():
        for found in re.finditer(r'\b(?:struct|enum) (\w+)[^;{]*\{', text):
            form = re.sub(r'\bpub(\(crate\))? |ghost [^\n]*', '', block(text, found.start()))
            form = ' '.join(form.split())
            if form.count(',') > 1:
                groups[form].append(f'{path}: {found.group(1)}')
        for found in re.finditer(r'(?m)^(?:pub(?:\(crate\))? )?const (\w+): ([^=]*) = ([^;]*);', text):
            groups[found.group(1) + found.group(3)].append(f'{path}: const {found.group(1)}')
    for places in groups.values():
        if len(places) > 1:
            yield ' = '.join(places)


def point_3():
    for place, _, _, _, body in functions():
        for found in re.finditer(r'\b(while|loop)\b[^\n]*|for [^\n]* in [^\n]*\{|\+= 1;', body):
            yield f'{place}: {found.group(0).strip()}'
    groups = collections.Counter()
    for place, _, _, _, body in functions():
        calls = collections.Counter(re.findall(r'(?m)^\s*(?:let \w+ = )?(?:b\'0\' \+ |\w+\()', body))
        if any(n >= 5 for n in calls.values()):
            yield f'{place}: one line written five times or more'


def point_4():
    for path, text in sources():
        for found in re.finditer(r'impl(?:<[^>]*>)? (?:fmt::)?(PartialEq|Eq|PartialOrd|Ord|Clone|Copy|Default|Display|Debug|From<[^>]*>|TryFrom<[^>]*>) for \w+', text):
            yield f'{path}: {found.group(0)}'
        for found in re.finditer(r'\w+ \{\s*(?:\w+: false,\s*){3,}\}', text):
            yield f'{path}: {found.group(0).split()[0]} written out all false'
    for place, name, signature, _, body in functions():
        if re.search(r'^same_|_text$|_name$|_named$|^(octal|binary|hex|kind|mark)$', name) and '#[test]' not in body:
            yield f'{place}: equality, printing or parsing in a function of its own'
        if re.search(r'(?<![\w.])(256 \*|\* 256|/ 256|% 256|0o400)(?!\w)', body) and '_tests/' not in place:
            yield f'{place}: bytes of a word by sums'
        if name != 'main' and re.search(r'\) -> (?:u8|u16|Register|Operand|Condition|\w+Operation|Kind|LineBits|FlagMask|Flags|FlagChange)\b', signature) and re.search(r'\b(digit|word|bits|number|condition|register|operation|size|control|change|mask|request|reply|status|step): ', signature) and re.search(r'match ', body):
            yield f'{place}: a conversion in a function of its own'


def point_5():
    facts = collections.defaultdict(list)
    lists = collections.defaultdict(set)
    for place, _, signature, clauses, _ in functions():
        for clause in clauses:
            if clause.startswith('requires'):
                fact = re.sub(r'^requires \w*', '', clause)
                names = {}
                fact = re.sub(r'\b[a-z]\w*(?:\.(?:now|old|new))?\b', lambda m: m.group(0) if m.group(0) in ('length', 'span', 'take', 'drop') else names.setdefault(m.group(0).split('.')[0], '_'), fact)
                for part in fact.split('×'):
                    facts[part.strip(' {}()')].append(place)
        inside = signature[signature.find('('):]
        parameters = re.findall(r'(\w+): (&?(?:mut )?[\w\[\]; ]+)', inside)
        parameters = [kind.strip() for _, kind in parameters]
        for i in range(len(parameters)):
            for j in range(i + 2, len(parameters) + 1):
                lists[', '.join(parameters[i:j])].add(place)
    for fact, places in sorted(facts.items()):
        if len(set(places)) >= 3:
            yield f'requires {fact}: {len(set(places))} functions'
    kept = {run: places for run, places in lists.items() if len(places) >= 3}
    for run, places in sorted(kept.items()):
        if not any(run != other and run in other and places <= kept[other] for other in kept):
            yield f'parameters ({run}): {len(places)} functions'
    clauses = collections.Counter()
    for place, _, _, all_clauses, _ in functions():
        for clause in all_clauses:
            if 'Played' in clause:
                clauses['Played .. (B.Board.meaning board.old) side.old .. (B.Board.meaning board.new) side.new'] += 1
    for clause, count in clauses.items():
        yield f'ensures {clause}: {count} functions'


def point_6():
    for path, text in sources():
        for found in re.finditer(r'\bstruct (\w+)[^;{]*\{', text):
            body = block(text, found.start())
            if re.search(r': \[[^\]]*\]|: &\'a (?:mut )?\[', body) and re.search(r'\b(length|count|size|used|from|block|blocks): usize', body):
                yield f'{path}: struct {found.group(1)} has a buffer with numbers beside it'
    for place, _, signature, _, body in functions():
        if re.search(r'\[u8; [A-Z\d]+\]', signature) and '->' in signature and re.search(r'-> \[u8; [A-Z]', signature):
            yield f'{place}: a buffer with its length beside'
        if re.search(r'&mut \[u8(; \w+)?\]\) -> usize', signature):
            yield f'{place}: fills a buffer and answers a length'
        if re.search(r'\(usize, usize\)', signature):
            yield f'{place}: two indices'


def point_7():
    for place, _, signature, _, body in functions():
        calls = re.findall(r'=> (\w+)\(([^,()]+), ([^,()]+), ([^,()]+)[,)]', body)
        same = collections.Counter(arguments[1:] for arguments in calls)
        if same and max(same.values()) >= 3:
            yield f'{place}: {max(same.values())} arms call a function on the same values'
        if re.search(r'\bfn\(|dyn |impl Fn|FnOnce|FnMut', signature + body):
            yield f'{place}: a function as a value'
        if re.search(r'match (?:self|job|call|word) \{', body) and 'side' in signature:
            yield f'{place}: a switch on which step to run'


def point_8():
    answers, bodies = 0, collections.Counter()
    for path in sorted(glob.glob('crates/*/proofs/**/Answers.antt', recursive=True) + glob.glob('crates/*/proofs/**/Proof.antt', recursive=True)):
        with open(path) as file:
            text = file.read()
        for found in re.finditer(r'(?ms)^pub ([\w-]+) : [^\n]*\n((?:unfolding[^\n]*\n)?)\1([^=]*)=(.*?)(?=^pub |^abbrev |^\w[\w-]* : |\Z)', text):
            answers += 1
            bodies[' '.join((found.group(2) and 'unfolding .. ' or '') .split() + found.group(4).split())] += 1
    yield f'answers: {answers}'
    for body, count in bodies.most_common():
        if count >= 3:
            yield f'{count} answers are: {body[:100]}'
    lines = 0
    for path in glob.glob('crates/*/proofs/*.antt'):
        with open(path) as file:
            lines += sum(1 for line in file)
    yield f'lines of lemmas: {lines}'


def main():
    points = [word for word in sys.argv[1:] if word.isdigit()] or [str(n) for n in range(1, 9)]
    for number in points:
        places = list(globals()['point_' + number]())
        print(f'{number}: {len(places)}')
        if '--list' in sys.argv:
            for place in places:
                print('   ' + place)


main()
