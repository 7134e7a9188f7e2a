#!/usr/bin/env python3
"""Words the answers of the program `settle` for people; `./settle --tell` runs it.

It reads what the program writes with `--echo`: each line of the script behind "> ", and then its answer. Every number comes from there.
Nothing is worked out here but how a thing is said, and whether a proposal was given before. A call, and an answer, is a row below.

    settle --echo <SCRIPT | tell.py HEADER      HEADER is include/imbolaverk.h, whose words for the refusals are used
    tell.py --calls                             the calls that have words
"""
import os
import re
import struct
import sys

NAMED = ('variable', 'pack', 'set', 'union', 'clause')
names = {}
given_before = {}


def thing(kind, number):
    """What is meant by a number, with the name that the script gave it."""
    said = f'version set {number}' if kind == 'set' else f'{kind} {number}'
    name = names.get((kind, number))
    return f'{said} ({name})' if name else said


def variable(number):
    return thing('variable', number)


def clause(number):
    return thing('clause', number)


def pack(number):
    return thing('pack', number)


def requirement(kind, number):
    return thing('set' if kind == 's' else 'union', number)


def many(number, one, more):
    return {'0': f'no {one}', '1': f'one {one}'}.get(number, f'{number} {more}')


def truth(value):
    return {'0': 'false', '1': 'true'}.get(value, value)


def shortest(bits):
    """The shortest decimal number that is the float of these bits."""
    packed = struct.pack('<I', int(bits))
    value = struct.unpack('<f', packed)[0]
    for digits in range(1, 18):
        text = f'{value:.{digits}g}'
        if struct.pack('<f', float(text)) == packed:
            break
    return text if any(mark in text for mark in '.en') else f'{text}.0'


def activity(word):
    return word if '.' in word else shortest(word)


def parts(words):
    """Lists with `;` between them."""
    lists = [[]]
    for word in words:
        if word == ';':
            lists.append([])
        else:
            lists[-1].append(word)
    return lists


def candidates(words):
    if words == ['none']:
        return 'no list of candidates'
    lists = [', '.join(map(variable, cells)) or 'none' for cells in parts(words)]
    return 'the candidates ' + '; then '.join(lists)


def condition(word):
    return '' if word == '-' else f' and every literal of disjunction {word} is false'


def literals(words):
    pairs = zip(words[::2], words[1::2])
    return ', '.join(('not ' if sign == '1' else '') + variable(number) for number, sign in pairs) or 'no literal'


def node(kind, left, right):
    return f'a leaf of {thing("set", left)}' if kind == 'leaf' else f'node {left} {kind} node {right}'


def entry(words):
    number, value, reason = words[:3]
    return f'{variable(number)} {truth(value)} for {clause(reason)}'


def tell_trail(call, words):
    if not words:
        return 'the trail is empty'
    entries = [entry(words) for words in parts(words)]
    return f'the trail has {many(str(len(entries)), "entry", "entries")}: ' + '; '.join(entries)


def tell_terms(call, words):
    terms = [' and '.join(thing('set', one) for one in term) for term in parts(words)]
    return f'node {call[1]} has {"no term" if not words else "the terms: " + "; or ".join(terms)}'


def left_queue(dropped):
    return f'{many(dropped, "clause", "clauses")} left the queue'


def tell_choice(call, words):
    number, parent, reason, bits, count, dropped = words
    proposal, line = tuple(words[:5]), call.line
    said = (f'settle {variable(number)} next: {variable(parent)} needs it by {clause(reason)}; activity {shortest(bits)}, '
            f'{count} undecided in its list, {left_queue(dropped)}')
    before = given_before.get(proposal)
    given_before[proposal] = (line, dropped)
    if before:
        said += f'\nthis is the proposal of line {before[0]} again'
        if before[1] != dropped:
            said += '; how many clauses left the queue tells of the call, not of the proposal'
    return said


def tell_fresh(call):
    given_before.clear()
    return 'the store is fresh: nothing is loaded or assigned, standard mode'


# What a call did that was answered with ok.
CALLS = {
    'fresh': tell_fresh,
    'vs': lambda c: f'{thing("set", c[1])} is loaded, of {pack(c[2])}',
    'union': lambda c: f'{thing("union", c[1])} is loaded, of ' + ', '.join(thing('set', one) for one in c[2:]),
    'cand': lambda c: f'{requirement(c[1], c[2])} has {candidates(c[3:])}',
    'lookup': None,
    'disj': lambda c: f'disjunction {c[1]} is loaded: {literals(c[2:])}',
    'node': lambda c: f'node {c[1]} is loaded: {node(*c[2:5])}',
    'dnf': None,
    'assign': None,
    'undo_last': None,
    'undo_until': lambda c: 'the trail is empty again' if c[1] == '0' else f'what is above level {c[1]} is taken back',
    'next': None,
    'clause_of': None,
    'value_of': None,
    'level_of': None,
    'trail': None,
    'register': lambda c: f'{clause(c[5])} is registered: if {variable(c[1])} is true{condition(c[4])}, '
                          f'it needs a candidate of {requirement(c[2], c[3])}',
    'hot': lambda c: f'{pack(c[1])} is hot from now on',
    'activity': lambda c: f'{pack(c[1])} has the activity {activity(c[2])}',
    'mode': lambda c: 'standard mode: behind the first, only clauses of hot packs are looked at' if c[1] == '1'
                      else 'the other mode: every clause is looked at',
    'sync': None,
    'propose': None,
    'holds': None,
    'help': None,
    'name': None,
    'quit': None,
}

# What an answer says that is more than ok: by its first word, the call and the words behind.
ANSWERS = {
    'new': lambda c, w: f'{variable(c[1])} is {truth(c[2])} at level {c[3]}, for {clause(c[4])}',
    'already': lambda c, w: f'{variable(c[1])} is {truth(c[2])} already; nothing has changed',
    'popped': lambda c, w: f'{entry(w)} is taken back; the last entry is now of level {w[3]}',
    'next': lambda c, w: f'the next to propagate: {entry(w)}',
    'none': lambda c, w: 'nothing is left to propagate' if c[0] == 'next' else f'{variable(c[1])} is not on the trail',
    'clause': lambda c, w: f'{variable(c[1])} was assigned for {clause(w[0])}',
    'value': lambda c, w: f'{variable(c[1])} is ' + ('undecided' if w[0] == '-' else truth(w[0])),
    'level': lambda c, w: f'{variable(c[1])} ' + ('is undecided and has no level' if w[0] == '0' else f'is of level {w[0]}'),
    'trail': tell_trail,
    'touches': lambda c, w: f'the queue is up to date: {many(w[0], "entry", "entries")} came or went since the last sync',
    'choose': tell_choice,
    'nothing': lambda c, w: f'nothing is left to settle; {left_queue(w[0])}',
    'cells': lambda c, w: f'{requirement(c[1], c[2])} has {candidates(w) if w else "no candidates"}',
    'dnf': tell_terms,
    'holds': lambda c, w: 'the disjunct ' + ('holds' if w[0] == '1' else 'does not hold'),
}


class Call(list):
    """A call's words, without a comment behind them, and the number of its line."""

    def __init__(self, text, line):
        words = text.split()
        ends = [i for i, word in enumerate(words) if word.startswith('#')]
        super().__init__(words[:ends[0]] if ends else words)
        self.line = line


def refusals(header):
    """The header's words for each number."""
    text = open(header, encoding='utf-8').read()
    numbers = dict(re.findall(r'^\s*(IMB_\w+) = (\d+)', text, re.M))
    return {numbers[name]: said for name, said in re.findall(r'case (IMB_\w+): return "(.*)";', text)}


def told(call, answer, texts):
    """A sentence for an answer, or the answer itself where no row has words for it."""
    first, *words = answer.split()
    if first == 'ok' and call and CALLS.get(call[0]):
        return CALLS[call[0]](call)
    if first == 'refused' and words:
        said = f'line {call.line} is refused, {words[0]}: {texts.get(words[0], "no number that the header knows")}'
        if len(words) == 3:
            return f'{said}: {clause(words[1])}; {left_queue(words[2])} before it was met'
        return said + '; nothing has changed'
    if answer.startswith('bad line '):
        return f'line {call.line} is not understood: ' + answer.split(': ', 1)[1]
    if call and call[0] != 'help' and first in ANSWERS:
        return ANSWERS[first](call, words)
    return answer


def take_name(call):
    if len(call) == 4 and call[0] == 'name' and call[1] in NAMED:
        names[call[1], call[2]] = call[3]


def sentence(text):
    return text if not text or text.endswith('..') else text[0].upper() + text[1:] + '.'


def tell(lines, texts, write):
    number, call = 0, Call('', 0)
    for raw in lines:
        line = raw.rstrip(b'\n').decode('utf-8', 'replace')
        if line.startswith('> '):
            number += 1
            text = line[2:].rstrip('\r')
            call = Call(text, number)
            take_name(call)
            write(f'{number:4}  {text}\n' if text.strip() else '\n')
        elif call and call[0] == 'help':
            write(f'      {line}\n')
        else:
            for part in told(call, line, texts).split('\n'):
                write(f'      {sentence(part)}\n')


def main(words):
    if words == ['--calls']:
        print('\n'.join(CALLS))
        return 0
    if len(words) != 1 or words[0].startswith('-'):
        print(__doc__, file=sys.stderr if words != ['--help'] else sys.stdout)
        return 0 if words == ['--help'] else 2
    out = sys.stdout.buffer

    def write(text):
        out.write(text.encode('utf-8', 'replace'))
        out.flush()

    try:
        tell(sys.stdin.buffer, refusals(words[0]), write)
    except OSError as error:
        if not isinstance(error, BrokenPipeError):
            print(f'settle: the answers cannot be told: {error.strerror}', file=sys.stderr, flush=True)
        # What is left unwritten would be tried again by a plain return.
        os._exit(2)
    return 0


if __name__ == '__main__':
    sys.exit(main(sys.argv[1:]))
