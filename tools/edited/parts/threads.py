"""The rows of S6: the rules on a thread, each broken on threads that keep it."""
import copy
import json

from parts.rules import MIB, target_of
from parts.shapes import on_tree
from parts.table import ACCEPTED, row


class At:
    """A thread of a tree, and what its project says of its blocks."""

    def __init__(self, t, s, thread):
        self.tree = t
        self.thread = thread
        self.target = target_of(t, s, thread)
        self.levels = thread['levels']
        self.script = self.target.script(thread['hat'])
        self.top = self.levels[-1][0]

    def kind(self, block):
        return self.target.kind(block)

    def under(self, *kinds):
        """The first level under another whose block is of such a kind."""
        return next(level for level in self.levels[:-1] if self.kind(level[0]) in kinds)

    def allowed(self, at):
        """The blocks that a level at a place may have."""
        return self.script if at == 0 else self.target.over(self.levels[at - 1][0])

    def another(self, *allowed):
        """A block of the target that is none of these."""
        return next(n for n in reversed(range(len(self.target.blocks))) if n not in allowed)

    def is_named(self):
        return any(q[1] == self.thread['number'] for q in self.tree['questions']) or any(x[2] == self.thread['number'] for x in self.tree['timers'])

    def runs(self):
        """From here on it waits for nothing; where a question or a timer names it there is no edit."""
        if self.is_named():
            raise StopIteration
        self.thread['status'] = 'run'


def thread_row(rule, told, what, edit, number='S6'):
    """An edit of the first thread that can be edited so."""
    def first(t, s):
        text = json.dumps(t)
        for at in range(len(t['threads'])):
            tried = json.loads(text)
            try:
                done = edit(At(tried, s, tried['threads'][at]))
            except (IndexError, KeyError, StopIteration):
                continue
            if done is None or done:
                t.update(tried)
                return True
        return False
    row('%s %s' % (number, rule), told, what, on_tree(first))


def broken(rule, what, edit):
    thread_row(rule, 'S6', what, edit)


def kept(rule, what, edit):
    thread_row(rule, ACCEPTED, what, edit)


# a level

broken('a level', 'none', lambda a: a.levels.clear())
broken('a level', 'one without a block over the others', lambda a: a.top is not None and a.levels.append([None, None]) is None)
broken('a level', 'one without a block under the others', lambda a: a.levels.insert(0, [None, None]))
broken('a level', 'the bottom block left out', lambda a: len(a.levels) > 1 and a.levels[0].__setitem__(0, None) is None)
for context in (['loop'], ['asked'], ['spoken'], ['repeat', 1], ['wait', 0, 0], ['call', []], ['started', []]):
    broken('a level', 'one without a block that keeps %s' % context, lambda a, context=context: a.runs() or a.levels.__setitem__(slice(None), [[None, context]]))
kept('a level', 'one without a block', lambda a: a.runs() or a.levels.__setitem__(slice(None), [[None, None]]))
for status in ('tick', 'wait'):
    broken('a level', 'one without a block, with %s' % status, lambda a, status=status: a.levels.__setitem__(slice(None), [[None, None]]) or a.thread.update(status=status))

# where a block stands

broken('the bottom', 'the hat', lambda a: a.levels.__setitem__(slice(None), [[a.thread['hat'], None]]))
broken('the bottom', 'a block that is not under the hat', lambda a: a.runs() or a.levels.__setitem__(slice(None), [[a.another(*a.script), None]]))
broken('the bottom', 'a block of another script', lambda a: a.runs() or a.levels.__setitem__(slice(None), [[next(b for h in a.target.hats for b in a.target.script(h) if b not in a.script), None]]))
broken('the bottom', 'a block in a branch of one under the hat', lambda a: a.runs() or a.levels.__setitem__(slice(None), [[next(b for n in a.script for b in a.target.over(n) if b not in a.script), None]]))
broken('the bottom', 'a definition', lambda a: a.runs() or a.levels.__setitem__(slice(None), [[next(d for d in a.target.definitions if d not in a.script), None]]))
broken('the bottom', 'the bottom level is missing', lambda a: a.levels.pop(0) and a.levels[0][0] not in a.script)
broken('the bottom', 'the bottom block is another', lambda a: a.levels[0].__setitem__(0, a.another(*a.script)))
broken('the bottom', 'levels turned round', lambda a: len(a.levels) > 1 and a.top not in a.script and a.levels.reverse() is None)
for at in (1, 2):
    broken('the others', 'level %d is missing' % at, lambda a, at=at: a.levels.pop(at) and a.levels[at][0] not in a.allowed(at))
    broken('the others', 'level %d is of another block' % at, lambda a, at=at: a.levels[at].__setitem__(0, a.another(*a.allowed(at))))
broken('the others', 'the top is the block under it', lambda a: a.levels[-2][0] not in a.allowed(len(a.levels) - 1) and a.levels[-1].__setitem__(slice(None), [a.levels[-2][0], None]) is None)
broken('the others', 'the top is the hat', lambda a: len(a.levels) > 1 and a.levels[-1].__setitem__(slice(None), [a.thread['hat'], None]) is None)
broken('the others', 'the top is a block of the script under the hat', lambda a: a.levels[-1].__setitem__(slice(None), [next(b for b in a.script if b not in a.allowed(len(a.levels) - 1)), None]) if len(a.levels) > 1 else False)
broken('the others', 'a level twice', lambda a: a.levels[-2][0] not in a.target.over(a.levels[-2][0]) and a.levels.insert(-1, copy.deepcopy(a.levels[-2])) is None)
broken('the others', 'over a call a block that is not in the procedure', lambda a: a.kind(a.levels[-2][0]) == 'call' and a.levels[-1].__setitem__(slice(None), [a.another(*a.allowed(len(a.levels) - 1)), None]) is None)
kept('the others', 'over a call the definition', lambda a: a.runs() or (a.target.called(a.levels[-2][0]) and a.levels[-1].__setitem__(slice(None), [a.target.called(a.levels[-2][0])[0], None]) is None) or False)
kept('the others', 'the last block of the branch', lambda a: a.runs() or a.levels[-1].__setitem__(slice(None), [a.allowed(len(a.levels) - 1)[-1], None]))

# what a level under another keeps

UNDER = {
    'choice': (['loop'], ['repeat', 1], ['call', []], ['wait', 0, 0], ['asked'], ['spoken']),
    'endless': (None, ['repeat', 1], ['repeat', 'inf'], ['call', []], ['asked'], ['glide', 0, 1, 0, 0, 0, 0]),
    'counted': (None, ['loop'], ['repeat', -1], ['repeat', -9 * 10 ** 12], ['call', []], ['wait', 0, 0], ['spoken']),
    'call': (None, ['loop'], ['repeat', 0], ['wait', 0, 0], ['asked']),
}
for kind, contexts in UNDER.items():
    for context in contexts:
        broken('under another: ' + kind, 'keeps %s' % context, lambda a, kind=kind, context=context: a.under(kind).__setitem__(1, context))
    broken('under another: ' + kind, 'keeps started', lambda a, kind=kind: a.tree['next'][0] > 0 and a.under(kind).__setitem__(1, ['started', [0]]) is None)
for count in (0, 1, 9 * 10 ** 12, 'inf'):
    kept('under another: counted', 'has %s turns left' % count, lambda a, count=count: a.under('counted').__setitem__(1, ['repeat', count]))
for kind in ('plain', 'wait', 'glide', 'starts', 'ask', 'speak'):
    broken('under another: plain', 'a %s block under any' % kind, lambda a, kind=kind: a.runs() or a.levels.__setitem__(slice(None), [[next(n for n in a.script if a.kind(n) == kind), None], [a.script[0], None]]))

# what the top level keeps

CONTEXTS = {
    'loop': ['loop'], 'repeat': ['repeat', 1], 'wait': ['wait', 0, 0], 'glide': ['glide', 0, 1, 0, 0, 0, 0], 'asked': ['asked'], 'spoken': ['spoken'], 'call': ['call', []],
}
KEEPS = {'endless': 'loop', 'counted': 'repeat', 'wait': 'wait', 'glide': 'glide', 'ask': 'asked', 'speak': 'spoken', 'call': 'call'}


def marks(a, block):
    """What a block keeps under another level, and the definition that it calls; nothing where it cannot be under one."""
    called = a.target.called(block)
    if called:
        return [['call', [[name, ''] for name in called[1]]]], called[0]
    return {'choice': [None], 'endless': [['loop']], 'counted': [['repeat', 1]]}.get(a.kind(block), []), None


def way(a, kind, script, under, called):
    """The levels up to the first block of a kind that is in a script or over one of its blocks; nothing where there is none."""
    for block in script:
        if a.kind(block) == kind:
            return under + [[block, None]]
    for block in script:
        for mark, definition in [(mark, marks(a, block)[1]) for mark in marks(a, block)[0]]:
            found = definition not in called and way(a, kind, a.target.over(block), under + [[block, mark]], called + ([definition] if definition is not None else []))
            if found:
                return found
    return []


def top_of(a, kind, context, status='run'):
    """Puts the first block of a kind on top that may stand there, or another way over the script, keeping a context; so also runs
    that stand elsewhere are edited."""
    if a.is_named():
        return False
    blocks = [n for n in a.allowed(len(a.levels) - 1) if a.kind(n) == kind]
    if blocks:
        a.levels[-1] = [blocks[0], context]
    else:
        a.levels[:] = way(a, kind, a.script, [], [])
        a.levels[-1][1] = context
    a.thread['status'] = status
    return True


for kind in ('plain', 'choice', 'endless', 'counted', 'wait', 'glide', 'starts', 'ask', 'speak'):
    for word, context in CONTEXTS.items():
        if KEEPS.get(kind) != word:
            status = 'wait' if word in ('asked', 'spoken') else 'run'
            broken('the top: ' + kind, 'keeps %s' % word, lambda a, kind=kind, context=context, status=status: top_of(a, kind, context, status))
    if kind != 'starts':
        broken('the top: ' + kind, 'keeps started', lambda a, kind=kind: a.tree['next'][0] > 0 and top_of(a, kind, ['started', [0]], 'tick'))
    kept('the top: ' + kind, 'keeps nothing', lambda a, kind=kind: top_of(a, kind, None))
kept('the top: endless', 'keeps its mark', lambda a: top_of(a, 'endless', ['loop']))
for count in (0, 9 * 10 ** 12, 'inf'):
    kept('the top: counted', 'has %s turns left' % count, lambda a, count=count: top_of(a, 'counted', ['repeat', count]))
for count in (-1, -9 * 10 ** 12):
    broken('the top: counted', 'has %s turns left' % count, lambda a, count=count: top_of(a, 'counted', ['repeat', count]))
for value in (-1, -9 * 10 ** 18, '-inf', 'nan'):
    broken('the top: wait', 'lasts %s' % value, lambda a, value=value: top_of(a, 'wait', ['wait', a.tree['clock'], value]))
for value in (0, 1, 'inf'):
    kept('the top: wait', 'lasts %s' % value, lambda a, value=value: top_of(a, 'wait', ['wait', a.tree['clock'], value]))
broken('the top: wait', 'began a millisecond behind the clock', lambda a: top_of(a, 'wait', ['wait', a.tree['clock'] + 1, 1000000]))
broken('the top: wait', 'began at 2^64 - 1', lambda a: top_of(a, 'wait', ['wait', 2 ** 64 - 1, 1000000]))
for value in (0, -1, '-inf', 'nan'):
    broken('the top: glide', 'lasts %s' % value, lambda a, value=value: top_of(a, 'glide', ['glide', a.tree['clock'], value, 0, 0, 0, 0]))
for value in (1, 'inf'):
    kept('the top: glide', 'lasts %s' % value, lambda a, value=value: top_of(a, 'glide', ['glide', a.tree['clock'], value, 'nan', '-inf', 'inf', 9 * 10 ** 18]))
broken('the top: glide', 'began a millisecond behind the clock', lambda a: top_of(a, 'glide', ['glide', a.tree['clock'] + 1, 1000000, 0, 0, 0, 0]))
broken('the top: glide', 'began at 2^64 - 1', lambda a: top_of(a, 'glide', ['glide', 2 ** 64 - 1, 1000000, 0, 0, 0, 0]))
for status in ('run', 'tick', 'wait'):
    broken('the top: starts', 'the started ones emptied, with %s' % status, lambda a, status=status: top_of(a, 'starts', ['started', []], status))
broken('the top: starts', 'the started ones emptied where it waits', lambda a: ticks(a) and a.levels[-1][1][1].clear() is None)
for status in ('run', 'tick'):
    kept('the top: starts', 'a thread twice, with %s' % status, lambda a, status=status: a.tree['next'][0] > 0 and top_of(a, 'starts', ['started', [0, 0]], status))

# the parameters of a call

VALUES = ['', True, [0], ['inf']]


def with_params(a, names):
    """A call on top that keeps values under these names."""
    return top_of(a, 'call', ['call', [[name, VALUES[at % 4]] for at, name in enumerate(names)]])


def called_on_top(a):
    """The names of the procedure that the first call there calls."""
    if not top_of(a, 'call', None) or a.target.called(a.levels[-1][0]) is None:
        raise StopIteration
    return a.target.called(a.levels[-1][0])[1]


def params(what, change, fits=lambda names: True):
    broken('parameters', what, lambda a: fits(called_on_top(a)) and with_params(a, change(called_on_top(a))))

    def under(a):
        level = a.under('call')
        names = [x[0] for x in level[1][1]]
        if not fits(names):
            return False
        level[1][1] = [[name, ''] for name in change(names)]
        return True
    broken('parameters', what + ', under another level', under)


params('one more', lambda names: names + ['another'])
params('one more in front', lambda names: ['another'] + names)
params('the first twice', lambda names: names[:1] + names, lambda names: names)
params('the last is missing', lambda names: names[:-1], lambda names: names)
params('none', lambda names: [], lambda names: names)
params('renamed', lambda names: [names[0] + ' '] + names[1:], lambda names: names)
params('in capitals', lambda names: [name.swapcase() for name in names], lambda names: names and any(name.swapcase() != name for name in names))
params('turned round', lambda names: names[::-1], lambda names: len(names) > 1)
kept('parameters', 'as the prototype has them', lambda a: with_params(a, called_on_top(a)))
broken('parameters', 'a call of no procedure', lambda a: top_of(a, 'call', ['call', []]) and a.target.called(a.levels[-1][0]) is None)
for word, context in CONTEXTS.items():
    if word != 'call':
        broken('the top: call', 'keeps %s' % word, lambda a, word=word, context=context: top_of(a, 'call', context, 'wait' if word in ('asked', 'spoken') else 'run'))
kept('the top: call', 'keeps nothing', lambda a: top_of(a, 'call', None))

# a rule of S5, on calls that are put there
for text, told in (('a' * (MIB + 1), 'S5'), ('\u00e9' * (MIB // 2) + '"', 'S5'), ('a' * MIB, ACCEPTED)):
    def with_text(a, text=text):
        names = called_on_top(a)
        return names and with_params(a, names) and a.levels[-1][1][1][-1].__setitem__(1, text) is None
    thread_row('text of parameters', told, '%d bytes, of a call that is put there' % len(text.encode()), lambda a, edit=with_text: bool(edit(a)), 'S5')

# the status


def waits(a):
    return a.levels[-1][1] in (['asked'], ['spoken'])


def ticks(a):
    return bool(a.levels[-1][1]) and a.levels[-1][1][0] == 'started'


broken('status', 'run where it waits for an answer or a bubble', lambda a: waits(a) and a.thread.update(status='run') is None)
broken('status', 'tick where it waits for an answer or a bubble', lambda a: waits(a) and a.thread.update(status='tick') is None)
broken('status', 'wait where it waits for none', lambda a: not waits(a) and not ticks(a) and a.thread.update(status='wait') is None)
broken('status', 'tick where it waits for none', lambda a: not waits(a) and not ticks(a) and a.thread.update(status='tick') is None)
broken('status', 'wait where it waits for started threads', lambda a: ticks(a) and a.thread.update(status='wait') is None)
for status in ('run', 'tick'):
    kept('status', '%s where it waits for started threads' % status, lambda a, status=status: ticks(a) and a.thread.update(status=status) is None)
broken('status', 'the context left out where it waits', lambda a: waits(a) and a.levels[-1].__setitem__(1, None) is None)
for kind, word in (('ask', 'asked'), ('speak', 'spoken')):
    for status in ('run', 'tick'):
        broken('status', '%s with %s' % (word, status), lambda a, kind=kind, word=word, status=status: top_of(a, kind, [word], status))
    kept('status', word + ' with wait', lambda a, kind=kind, word=word: top_of(a, kind, [word], 'wait'))

# what questions and timers name


def names(a, name, item):
    if a.is_named():
        return False
    a.tree[name].append(item)
    return True


def question(a):
    return 'questions', [a.thread['of'], a.thread['number'], '', False]


def timer(a):
    return 'timers', [0, a.thread['of'], a.thread['number'], 0]


broken('named', 'by a question, and waits for no answer', lambda a: a.levels[-1][1] != ['asked'] and names(a, *question(a)))
broken('named', 'by a timer, and waits for no bubble', lambda a: a.levels[-1][1] != ['spoken'] and names(a, *timer(a)))
broken('named', 'by a timer, and waits for an answer', lambda a: a.levels[-1][1] == ['asked'] and a.tree['timers'].append(timer(a)[1]) is None)
broken('named', 'by a question, and waits for a bubble', lambda a: a.levels[-1][1] == ['spoken'] and a.tree['questions'].append(question(a)[1]) is None)
for kind, word, of in (('ask', 'asked', timer), ('speak', 'spoken', question)):
    broken('named', 'by a %s, and has %s' % (of.__name__, word), lambda a, kind=kind, word=word, of=of: top_of(a, kind, [word], 'wait') and names(a, *of(a)))
for kind, word, of in (('ask', 'asked', question), ('speak', 'spoken', timer)):
    kept('named', 'by a %s, and has %s' % (of.__name__, word), lambda a, kind=kind, word=word, of=of: top_of(a, kind, [word], 'wait') and names(a, *of(a)))
kept('named', 'by none, where it has asked or spoken', lambda a: waits(a) and (a.tree['questions'].clear() or a.tree['timers'].clear()) is None)

# the order of the tests: S6 in front of S7
row('S6 order', 'S6', 'a thread without levels, and a space behind', lambda s: on_tree(lambda t, s: t['threads'][0].update(levels=[]))(s) and on_tree(lambda t, s: t['threads'][0].update(levels=[]))(s) + b' ')
