"""The rows of S5: the rules on the parts of a run, each broken by one past its limit, and the limits, which no rule refuses."""
import copy

from parts.saves import as_it_is
from parts.shapes import more, on_tree, out, put
from parts.table import ACCEPTED, row

MIB = 1048576
NEXT = 2 ** 62


def change(rule, told, what, edit):
    row('S5 ' + rule, told, what, on_tree(edit))


def broken(rule, what, edit):
    change(rule, 'S5', what, edit)


def kept(rule, what, edit):
    change(rule, ACCEPTED, what, edit)


def sprites(t, s):
    return [i for i in t['instances'] if i['of'] != s.project.stage]


def sprite(t, s):
    return sprites(t, s)[-1]


def stage(t, s):
    return next(i for i in t['instances'] if i['of'] == s.project.stage)


def clones(t):
    return [i for i in t['instances'] if i['of'] != i['number']]


def with_clones(t, of, count):
    """Puts as many clones of an instance at the end."""
    for _ in range(count):
        t['instances'].append(dict(copy.deepcopy(of), number=t['next'][1]))
        t['next'][1] += 1


def no_thread(t):
    """A number that was given to a thread which is not there any more, and that nothing names."""
    named = {x['number'] for x in t['threads']} | {q[1] for q in t['questions']} | {x[2] for x in t['timers']}
    return next(n for n in range(t['next'][0]) if n not in named)


# clock, timer, mouse

broken('clock', '9 * 10^12 + 1', lambda t, s: t.update(clock=9 * 10 ** 12 + 1))
broken('clock', '2^63', lambda t, s: t.update(clock=2 ** 63))
kept('clock', '9 * 10^12', lambda t, s: t.update(clock=9 * 10 ** 12))
broken('timer', 'one above the clock', lambda t, s: t.update(timer=t['clock'] + 1))
broken('timer', '2^64 - 1', lambda t, s: t.update(timer=2 ** 64 - 1))
kept('timer', 'the clock', lambda t, s: t.update(timer=t['clock']))
kept('timer', '0', lambda t, s: t.update(timer=0))
for at, limit in ((0, 240), (1, 180)):
    for sign in (1, -1):
        broken('mouse', '%s is %d' % ('XY'[at], sign * (limit + 1)), lambda t, s, at=at, n=sign * (limit + 1): t['mouse'].__setitem__(at, n))
        kept('mouse', '%s is %d' % ('XY'[at], sign * limit), lambda t, s, at=at, n=sign * limit: t['mouse'].__setitem__(at, n))

# keys

for key in ('a', 'z', '', ' ', 'AB', 'Space', 'left', 'left  arrow', 'LEFT ARROW', '\t', '\u00a0', '\u3000', '\u2028', 'esc'):
    broken('keys', repr(key), lambda t, s, key=key: t['keys'].append(key))
for key in ('A', 'space', 'left arrow', '7', '\u00e9', '\U0001f431', '\u200b'):
    broken('keys', '%r twice' % key, lambda t, s, key=key: t.update(keys=[key, 'down arrow', key]))
    kept('keys', repr(key), lambda t, s, key=key: t.update(keys=[key]))
kept('keys', 'all that have a name', lambda t, s: t.update(keys=['up arrow', 'enter', 'space', 'down arrow', 'left arrow', 'right arrow']))
broken('keys', 'an a beside an A', lambda t, s: t.update(keys=['A', 'a']))

# drawn, frame, next

for name in ('drawn', 'frame'):
    broken(name, '2^62', lambda t, s, name=name: t.update({name: NEXT}))
    broken(name, '2^64 - 1', lambda t, s, name=name: t.update({name: 2 ** 64 - 1}))
    kept(name, '2^62 - 1', lambda t, s, name=name: t.update({name: NEXT - 1}))
for at, name in enumerate(('thread', 'instance', 'usage')):
    broken('next', 'the %s is 2^62' % name, lambda t, s, at=at: t['next'].__setitem__(at, NEXT))
    broken('next', 'the %s is 2^64 - 1' % name, lambda t, s, at=at: t['next'].__setitem__(at, 2 ** 64 - 1))
    kept('next', 'the %s is 2^62 - 1' % name, lambda t, s, at=at: t['next'].__setitem__(at, NEXT - 1))
broken('next', 'the instance is below the number of targets', lambda t, s: t['next'].__setitem__(1, len(s.project.targets) - 1))
broken('next', 'the instance is 0', lambda t, s: t['next'].__setitem__(1, 0))
kept('next', 'the instance is the number of targets', lambda t, s: not clones(t) and t['next'].__setitem__(1, len(s.project.targets)))

# made, monitors


def counts(t, of):
    """How many variables and lists a target has."""
    i = next(i for i in t['instances'] if i['number'] == of)
    return {'variable': len(i['variables']), 'list': len(i['lists'])}


for word in ('variable', 'list'):
    for which in (0, -1):
        broken('made', 'one %s more than the target has' % word, lambda t, s, word=word, which=which: t['made'].append([word, range(len(s.project.targets))[which], counts(t, range(len(s.project.targets))[which])[word], True]))
    broken('made', 'a %s of a target that is not there' % word, lambda t, s, word=word: t['made'].append([word, len(s.project.targets), 0, True]))
    broken('made', 'a %s past all, in front' % word, lambda t, s, word=word: t['made'].insert(0, [word, 0, 2 ** 64 - 1, False]))
    kept('made', 'the last %s, twice' % word, lambda t, s, word=word: counts(t, s.project.stage)[word] > 0 and t['made'].extend([[word, s.project.stage, counts(t, s.project.stage)[word] - 1, v] for v in (True, False)]) is None)
row('S5 monitors', 'S5', 'one more', more('monitors', True))
row('S5 monitors', 'S5', 'one fewer', out('monitors', -1))
broken('monitors', 'three more', lambda t, s: t['monitors'].extend([False] * 3))
kept('monitors', 'the other truths', lambda t, s: t.update(monitors=[not m for m in t['monitors']]))

# instances: which there are

broken('stage first', 'the stage behind a sprite', lambda t, s: t['instances'].insert(1, t['instances'].pop(0)) or len(t['instances']) > 1)
broken('stage first', 'the stage at the end', lambda t, s: t['instances'].append(t['instances'].pop(0)) or len(t['instances']) > 1)
broken('stage first', 'no instance', lambda t, s: t.update(instances=[]))
broken('stage first', 'no stage', lambda t, s: t['instances'].pop(0) and None)
kept('stage first', 'the last sprite behind the stage', lambda t, s: len(t['instances']) > 2 and t['instances'].insert(1, t['instances'].pop()) is None)
broken('originals', 'the original of the last sprite is missing', lambda t, s: t['instances'].remove([i for i in sprites(t, s) if i['number'] == i['of']][-1]))
broken('originals', 'the original of the first sprite is missing', lambda t, s: t['instances'].remove([i for i in sprites(t, s) if i['number'] == i['of']][0]))
broken('originals', 'an original twice', lambda t, s: t['instances'].append(copy.deepcopy(next(i for i in sprites(t, s) if i['number'] == i['of']))))
broken('originals', 'an original with the number of a clone', lambda t, s: next(i for i in sprites(t, s) if i['number'] == i['of']).update(number=t['next'][1]) or t['next'].__setitem__(1, t['next'][1] + 1))
broken('originals', 'the stage twice', lambda t, s: t['instances'].append(copy.deepcopy(t['instances'][0])))


def turned_numbers(t, s):
    a, b = [i for i in sprites(t, s) if i['number'] == i['of']][:2] if len(s.project.targets) > 2 else (None, None)
    if a is None:
        return False
    a['number'], b['number'] = b['number'], a['number']
    return True


broken('originals', 'two originals with their numbers turned round', turned_numbers)
broken('clones', 'the number of a clone that was not given yet', lambda t, s: t['instances'].append(dict(copy.deepcopy(sprite(t, s)), number=t['next'][1])))
broken('clones', 'a number past all', lambda t, s: t['instances'].append(dict(copy.deepcopy(sprite(t, s)), number=2 ** 64 - 1)))
broken('clones', 'a clone with the number of the stage', lambda t, s: t['instances'].append(dict(copy.deepcopy(sprite(t, s)), number=s.project.stage)))
broken('clones', 'two clones of one number', lambda t, s: with_clones(t, sprite(t, s), 2) or t['instances'][-1].update(number=t['instances'][-2]['number']))
broken('clones', 'a clone of the stage', lambda t, s: with_clones(t, stage(t, s), 1))
broken('clones', 'a clone of a target that is not there', lambda t, s: with_clones(t, dict(sprite(t, s), of=len(s.project.targets)), 1))
broken('clones', 'an instance of a target past all with that number', lambda t, s: t['instances'].append(dict(copy.deepcopy(sprite(t, s)), of=len(s.project.targets) + 7, number=len(s.project.targets) + 7)))
broken('clones', 'the next instance is the number of a clone', lambda t, s: t['next'].__setitem__(1, max(i['number'] for i in clones(t))) if clones(t) else False)
kept('clones', 'a clone more', lambda t, s: len(clones(t)) < 300 and with_clones(t, sprite(t, s), 1) is None)
broken('300 clones', '301 clones', lambda t, s: with_clones(t, sprite(t, s), 301 - len(clones(t))))
broken('300 clones', '400 clones', lambda t, s: with_clones(t, sprite(t, s), 400 - len(clones(t))))
kept('300 clones', '300 clones', lambda t, s: with_clones(t, sprite(t, s), 300 - len(clones(t))))

# instances: what they have

broken('costumes', 'the costume of a sprite is as many as it has', lambda t, s: sprite(t, s).update(costume=s.project.targets[sprite(t, s)['of']].costumes))
broken('costumes', 'the costume of the stage is as many as it has', lambda t, s: stage(t, s).update(costume=s.project.targets[s.project.stage].costumes))
broken('costumes', '2^64 - 1', lambda t, s: sprite(t, s).update(costume=2 ** 64 - 1))
kept('costumes', 'the last one', lambda t, s: sprite(t, s).update(costume=s.project.targets[sprite(t, s)['of']].costumes - 1))
for rule, low, high in (('size', 0, 10 ** 10), ('direction', -179000000, 180999999)):
    for value in (low - 1, high + 1, 'inf', '-inf', 'nan'):
        broken(rule + 's', str(value), lambda t, s, rule=rule, value=value: sprite(t, s).update({rule: value}))
    for value in (low, high):
        kept(rule + 's', str(value), lambda t, s, rule=rule, value=value: sprite(t, s).update({rule: value}))
for name, at, low in (('brightness', 5, -100000000), ('ghost', 6, 0)):
    for value in (low - 1, 100000001, 'inf', '-inf', 'nan'):
        broken('effects', '%s %s of a sprite' % (name, value), lambda t, s, at=at, value=value: sprite(t, s)['effects'].__setitem__(at, value))
    broken('effects', name + ' of the stage', lambda t, s, at=at: stage(t, s)['effects'].__setitem__(at, 100000001))
    for value in (low, 100000000):
        kept('effects', '%s %s' % (name, value), lambda t, s, at=at, value=value: sprite(t, s)['effects'].__setitem__(at, value))
kept('effects', 'the others are as they like', lambda t, s: sprite(t, s).update(effects=['inf', '-inf', 'nan', -9 * 10 ** 18, 9 * 10 ** 18, 0, 0]))
for name, values in (('x', (1, -1, 'nan')), ('y', (1000000, 'inf')), ('size', (99999999, 0)), ('direction', (90000001, -90000000)), ('visible', (False,))):
    for value in values:
        broken('stage', '%s %s' % (name, value), lambda t, s, name=name, value=value: stage(t, s).update({name: value}))
for name, item in (('variables', [0]), ('lists', [])):
    for who in (stage, sprite):
        broken(name, 'of the %s, one more' % who.__name__, lambda t, s, name=name, item=item, who=who: who(t, s)[name].append(item))
        broken(name, 'of the %s, one fewer' % who.__name__, lambda t, s, name=name, who=who: who(t, s)[name].pop() and None)


def some_list(t, length, item=''):
    i = next(i for i in t['instances'] if i['lists'])
    i['lists'][-1] = [item] * length


def some_variable(t, value):
    i = next(i for i in t['instances'] if i['variables'])
    i['variables'][-1] = value


broken('items', '200001 texts', lambda t, s: some_list(t, 200001))
broken('items', '200001 truths', lambda t, s: some_list(t, 200001, True))
kept('items', '200000', lambda t, s: some_list(t, 200000))

# texts

for what, edit in (
    ('answer', lambda t, s, text: t.update(answer=text)),
    ('variables', lambda t, s, text: some_variable(t, text)),
    ('items', lambda t, s, text: some_list(t, 1, text)),
    ('questions', lambda t, s, text: t['questions'].append([s.project.stage, no_thread(t), text, False])),
):
    broken('text of ' + what, '1 MiB and a letter', lambda t, s, edit=edit: edit(t, s, 'a' * MIB + 'b'))
    broken('text of ' + what, 'a letter of two bytes too many', lambda t, s, edit=edit: edit(t, s, 'a' + '\u00e9' * (MIB // 2)))
    kept('text of ' + what, '1 MiB', lambda t, s, edit=edit: edit(t, s, 'a' * MIB))
    kept('text of ' + what, '1 MiB in letters of two bytes', lambda t, s, edit=edit: edit(t, s, '\u00e9' * (MIB // 2)))


def calls(t):
    return [level for x in t['threads'] for level in x['levels'] if level[1] and level[1][0] == 'call' and level[1][1]]


broken('text of parameters', '1 MiB and a letter', lambda t, s: calls(t)[0][1][1][0].__setitem__(1, 'a' * (MIB + 1)))
broken('text of parameters', '1 MiB and a letter, of the last call', lambda t, s: calls(t)[-1][1][1][-1].__setitem__(1, 'a' * MIB + '"'))
kept('text of parameters', '1 MiB', lambda t, s: calls(t)[0][1][1][0].__setitem__(1, '"' * MIB))
for text in ('a' * 331, '\u00e9' * 331, '\U0001f431' * 331, '\n' * 400):
    broken('text of bubbles', '%d times %r' % (len(text), text[0]), lambda t, s, text=text: sprite(t, s)['bubble'].__setitem__(1, text))
broken('text of bubbles', '331 of the stage', lambda t, s: stage(t, s)['bubble'].__setitem__(1, 'x' * 331))
for text in ('a' * 330, '\U0001f431' * 330):
    kept('text of bubbles', '330 times %r' % text[0], lambda t, s, text=text: sprite(t, s)['bubble'].__setitem__(1, text))

# usages, edges

broken('usages', 'of a bubble, the next one', lambda t, s: sprite(t, s)['bubble'].__setitem__(2, t['next'][2]))
broken('usages', 'of a bubble of the stage, past all', lambda t, s: stage(t, s)['bubble'].__setitem__(2, 2 ** 64 - 1))
broken('usages', 'of a timer, the next one', lambda t, s: t['timers'].append([0, s.project.stage, no_thread(t), t['next'][2]]))
broken('usages', 'the next one is 0', lambda t, s: t['next'].__setitem__(2, 0))
kept('usages', 'the last one', lambda t, s: sprite(t, s)['bubble'].__setitem__(2, t['next'][2] - 1))
broken('edges', 'of the number of blocks', lambda t, s: sprite(t, s).update(edges=[[len(s.project.targets[sprite(t, s)['of']].blocks), True]]))


def other_block(target, hats):
    return next(n for n in range(len(target.blocks)) if n not in hats)


def with_blocks(t, s):
    """The last instance whose target has blocks, and its target."""
    i = [i for i in t['instances'] if s.project.targets[i['of']].hats][-1]
    return i, s.project.targets[i['of']]


broken('edges', 'of a block that is no edge hat', lambda t, s: with_blocks(t, s)[0].update(edges=[[other_block(with_blocks(t, s)[1], with_blocks(t, s)[1].edge_hats), False]]))
broken('edges', 'of a block past all behind the others', lambda t, s: with_blocks(t, s)[0]['edges'].append([2 ** 64 - 1, False]))
kept('edges', 'of an edge hat', lambda t, s: with_blocks(t, s)[0].update(edges=[[with_blocks(t, s)[1].edge_hats[0], True]]))
kept('edges', 'of none', lambda t, s: [i.update(edges=[]) for i in t['instances']] and None)

# questions, timers



def asked(t, s, thread, of=None):
    t['questions'].append([s.project.stage if of is None else of, thread, 'a', False])


def timed(t, s, thread, of=None, due=0):
    t['timers'].append([due, s.project.stage if of is None else of, thread, 0])


for rule, named, thread_at in (('questions', asked, 1), ('timers', timed, 2)):
    def twice(t, s, of=None, rule=rule, named=named, thread_at=thread_at):
        named(t, s, no_thread(t))
        named(t, s, t[rule][-1][thread_at], of)

    broken(rule, 'the thread that is next', lambda t, s, named=named: named(t, s, t['next'][0]))
    broken(rule, 'a thread past all', lambda t, s, named=named: named(t, s, 2 ** 64 - 1))
    broken(rule, 'an instance that was not given yet', lambda t, s, named=named: named(t, s, no_thread(t), t['next'][1]))
    broken(rule, 'an instance past all', lambda t, s, named=named: named(t, s, no_thread(t), 2 ** 64 - 1))
    broken(rule, 'a thread twice', lambda t, s, twice=twice: twice(t, s))
    broken(rule, 'a thread twice, of two instances', lambda t, s, twice=twice: twice(t, s, sprite(t, s)['number']))
    kept(rule, 'a thread that is not there any more', lambda t, s, named=named: named(t, s, no_thread(t)))
    kept(rule, 'of a sprite', lambda t, s, named=named: named(t, s, no_thread(t), sprite(t, s)['number']))

kept('questions', 'a question and a timer of one thread that is not there any more', lambda t, s: asked(t, s, no_thread(t)) or timed(t, s, t['questions'][-1][1]))
broken('questions', 'the instance of a question is missing', lambda t, s: t['questions'][0].__setitem__(0, t['next'][1]))
broken('questions', 'the thread of a question is not given yet', lambda t, s: t['questions'][0].__setitem__(1, t['next'][0]))
broken('timers', 'the instance of a timer is missing', lambda t, s: t['timers'][0].__setitem__(1, t['next'][1]))
broken('timers', 'the thread of a timer is not given yet', lambda t, s: t['timers'][0].__setitem__(2, t['next'][0]))
for due in (-1, -9 * 10 ** 18, '-inf', 'nan'):
    broken('due', str(due), lambda t, s, due=due: timed(t, s, no_thread(t), None, due))
    broken('due', '%s of a timer that is there' % due, lambda t, s, due=due: t['timers'][0].__setitem__(0, due))
for due in (0, 'inf', 9 * 10 ** 18):
    kept('due', str(due), lambda t, s, due=due: timed(t, s, no_thread(t), None, due))

# threads

broken('threads', 'the instance was not given yet', lambda t, s: t['threads'][0].update(of=t['next'][1]))
broken('threads', 'the instance is past all', lambda t, s: t['threads'][-1].update(of=2 ** 64 - 1))
broken('threads', 'the number is the next one', lambda t, s: t['threads'][0].update(number=t['next'][0]))
broken('threads', 'the next thread is 0', lambda t, s: t['threads'] and t['next'].__setitem__(0, 0) is None)
broken('threads', 'a number twice', lambda t, s: t['threads'].append(copy.deepcopy(t['threads'][0])))
broken('threads', 'two threads of one number', lambda t, s: t['threads'][1].update(number=t['threads'][0]['number']))


def target_of(t, s, x):
    of = next(i['of'] for i in t['instances'] if i['number'] == x['of'])
    return s.project.targets[of]


broken('threads', 'the hat is a block under it', lambda t, s: t['threads'][0].update(hat=target_of(t, s, t['threads'][0]).script(t['threads'][0]['hat'])[0]))
broken('threads', 'the hat is as many as the blocks', lambda t, s: t['threads'][-1].update(hat=len(target_of(t, s, t['threads'][-1]).blocks)))
broken('threads', 'the hat is a definition', lambda t, s: t['threads'][0].update(hat=target_of(t, s, t['threads'][0]).definitions[0]))
broken('threads', 'the hat is one of another target', lambda t, s: t['threads'][0].update(hat=next(h for other in s.project.targets for h in other.hats if h not in target_of(t, s, t['threads'][0]).hats)))


def other_target(t, s):
    x = t['threads'][0]
    x['of'] = next(i['number'] for i in t['instances'] if x['hat'] not in s.project.targets[i['of']].hats)


broken('threads', 'the instance is of a target without that hat', other_target)
broken('blocks', 'the top one is as many as there are', lambda t, s: t['threads'][0]['levels'][-1].__setitem__(0, len(target_of(t, s, t['threads'][0]).blocks)))
broken('blocks', 'the bottom one is as many as there are', lambda t, s: t['threads'][-1]['levels'][0].__setitem__(0, len(target_of(t, s, t['threads'][-1]).blocks)))
broken('blocks', 'a level more with one past all', lambda t, s: t['threads'][0]['levels'].append([2 ** 64 - 1, None]))
broken('blocks', 'one past all, and a thread without levels in front', lambda t, s: t['threads'][1]['levels'][0].__setitem__(0, 2 ** 63) or t['threads'][0].update(levels=[]))
for what, numbers in (('the next one', lambda n: [n]), ('all and the next one', lambda n: list(range(min(n, 9))) + [n]), ('one past all', lambda n: [2 ** 64 - 1])):
    broken('started', 'the started one is ' + what, lambda t, s, numbers=numbers: t['threads'][0]['levels'][-1].__setitem__(1, ['started', numbers(t['next'][0])]))
broken('started', 'one more', lambda t, s: [level for x in t['threads'] for level in x['levels'] if level[1] and level[1][0] == 'started'][0][1][1].append(t['next'][0]))


def levels(t, s, count):
    """So many levels of a block in the first thread that all threads together have the count."""
    x = t['threads'][0]
    x['levels'] = [[0, None]] * (count - sum(len(y['levels']) for y in t['threads'][1:]))


broken('levels', '65537', lambda t, s: levels(t, s, 65537))
broken('levels', '65537 without blocks', lambda t, s: levels(t, s, 1) or t['threads'][0].update(levels=[[None, None]] * (65537 - sum(len(y['levels']) for y in t['threads'][1:]))))
change('levels', 'S6', '65536, which no rule of S5 refuses; but they cannot stand so', lambda t, s: levels(t, s, 65536))

# the order of the tests: S5 in front of S6 and S7
row('S5 order', 'S5', 'a clock past its limit, and a space behind', lambda s: put('clock', 9 * 10 ** 12 + 1)(s) + b' ')
broken('order', 'a key in lower case, and a thread without levels', lambda t, s: t['threads'][0].update(levels=[]) or t['keys'].append('b'))
broken('order', 'a clock past its limit, and an escape', lambda t, s: t.update(clock=9 * 10 ** 12 + 1, answer=as_it_is('"\\u0061"')))
