"""The rows of S1, S2, S3, S4 and S7: how a saved run is written, its version, its shapes and its project."""
import json

from parts.saves import as_it_is, written
from parts.table import ACCEPTED, row


def place(tree, path):
    for step in path:
        tree = tree[step]
    return tree


def on_tree(change):
    """An edit that changes the tree; nothing where the change says False or finds no place."""
    def edit(save):
        tree = save.tree()
        try:
            done = change(tree, save)
        except (IndexError, KeyError, StopIteration):
            return None
        return None if done is False else written(tree)
    return edit


def put(*path_and_value):
    """Puts a value at a path of names and places; where the path does not lead anywhere there is no edit."""
    *path, last, value = path_and_value

    def change(tree, save):
        held = place(tree, path)
        held[last]
        held[last] = value
    return on_tree(change)


def out(*path):
    def change(tree, save):
        del place(tree, path[:-1])[path[-1]]
    return on_tree(change)


def more(*path_and_value):
    """Puts a value at the end of the list at a path."""
    *path, value = path_and_value
    return on_tree(lambda tree, save: place(tree, path).append(value))


def bytes_of(change):
    return lambda save: change(save.data)


# -- S1: no JSON text

for what, change in (
    ('the last byte is missing', lambda d: d[:-1]),
    ('the second half is missing', lambda d: d[:len(d) // 2]),
    ('the first byte is missing', lambda d: d[1:]),
    ('it is empty', lambda d: b''),
    ('128 brackets in its place', lambda d: b'[' * 128 + b']' * 128),
    ('127 brackets in a member', lambda d: b'{"answer":' + b'[' * 127 + b']' * 127 + b',' + d[1:]),
    ('brackets that nest 128 deep in a member that is read past', lambda d: d[:-1] + b',"zzz":' + b'[' * 127 + b']' * 127 + b'}'),
    ('byte E9 in a text', lambda d: b'{"answer":"\xe9",' + d[1:]),
    ('a surrogate as three bytes', lambda d: b'{"answer":"\xed\xa0\xbd",' + d[1:]),
    ('a letter of two bytes where one does', lambda d: b'{"answer":"\xc1\xa1",' + d[1:]),
    ('byte FF behind it', lambda d: d + b'\xff'),
    ('a byte order mark in front', lambda d: b'\xef\xbb\xbf' + d),
    ('a comma before the last brace', lambda d: d[:-1] + b',}'),
    ('a letter behind it', lambda d: d + b'x'),
    ('two of them', lambda d: d + d),
    ('byte 0 behind it', lambda d: d + b'\0'),
    ('a line feed in a text', lambda d: b'{"answer":"a\nb",' + d[1:]),
    ('an escape that is none', lambda d: b'{"answer":"\\x61",' + d[1:]),
    ('an escape of three digits', lambda d: b'{"answer":"\\u061",' + d[1:]),
    ('a zero in front of a number', lambda d: d.replace(b'"clock":', b'"clock":0', 1) if b'"clock":0' not in d else d.replace(b'"clock":', b'"clock":00', 1)),
    ('a plus in front of a number', lambda d: d.replace(b'"clock":', b'"clock":+', 1)),
    ('a number that ends with a point', lambda d: d.replace(b',"drawn":', b'.,"drawn":', 1)),
    ('True for true', lambda d: d.replace(b'"turbo":false', b'"turbo":False', 1) if b'"turbo":false' in d else d.replace(b'"turbo":true', b'"turbo":True', 1)),
    ('NaN for a number', lambda d: d[:-1] + b',"zzz":NaN}'),
    ('marks of one stroke', lambda d: d.replace(b'"answer"', b"'answer'", 1)),
    ('a form feed in front', lambda d: b'\x0c' + d),
    ('a comment behind it', lambda d: d + b'//'),
    ('it is no JSON text, and of version 2', lambda d: d[:-1].replace(b'"version":1', b'"version":2')),
):
    row('S1', 'S1', what, bytes_of(change))

# These are JSON texts by RFC 8259, and docs/formats.md names no fault of theirs. They are S1 by the definition of what is read,
# `Reads` of crates/saved_spec/specs/Refusals.antt: its `read` gives no value for a number beyond the floats of 64 bits, nor for
# an escaped surrogate without its partner.
for number in ('1e400', '-1e400', '9' * 400):
    for name in ('clock', 'seed', 'version'):
        row('S1 numbers', 'S1', '%s is %s' % (name, number[:8]), put(name, as_it_is(number)))
    row('S1 numbers', 'S1', 'a further member is ' + number[:8], lambda s, number=number: s.data[:-1] + b',"zzz":%s}' % number.encode())
for text in ('\\ud83d', '\\udc31', '\\ud83d!', '\\udc31\\ud83d', '\\ud83d\\u0061'):
    row('S1 surrogates', 'S1', 'the answer is ' + text, put('answer', as_it_is('"%s"' % text)))

# -- S3: another version, before the shapes and all else

for version in (0, 2, 9, 2 ** 63, 2 ** 64 - 1):
    row('S3', 'S3', 'version %d' % version, put('version', version))
row('S3', 'S3', 'version 2, and no turbo', on_tree(lambda t, s: t.update(version=2) or t.pop('turbo') and None))
row('S3', 'S3', 'version 2, and no member else', on_tree(lambda t, s: [t.pop(k) for k in list(t)] and t.update(version=2)))
row('S3', 'S3', 'version 2, and a clock that is a text', on_tree(lambda t, s: t.update(version=2, clock='0')))
row('S3', 'S3', 'version 0, and a clock past its limit', on_tree(lambda t, s: t.update(version=0, clock=9 * 10 ** 12 + 1)))
row('S3', 'S3', 'version 2 and a line feed behind it', lambda s: s.data.replace(b'"version":1', b'"version":2') + b'\n')
row('S3', 'S3', 'version 2 of a name in an escape', lambda s: s.data.replace(b'"version":1', b'"v\\u0065rsion":2'))
row('S3', 'S3', 'version twice, the later is 2', lambda s: s.data[:-1] + b',"version":2}')
row('S3', 'S3', 'version 2 of another project', lambda s: (s.data.replace(b'"version":1', b'"version":2'), s.project.data + b' '))

# -- S2: a part has not its shape

for what, value in (
    ('"1"', '1'), ('1.5', 1.5), ('1.0', as_it_is('1.0')), ('1e0', as_it_is('1e0')), ('10e-1', as_it_is('10e-1')), ('-0', as_it_is('-0')),
    ('-1', -1), ('2^64', 2 ** 64), ('true', True), ('null', None), ('[1]', [1]), ('2.0', as_it_is('2.0')), ('-2', -2),
):
    row('S2 version', 'S2', 'version ' + what, put('version', value))
row('S2 version', 'S2', 'version twice, the later is a text', lambda s: s.data[:-1] + b',"version":"1"}')

for what, text in (('a list', b'[]'), ('a number', b'5'), ('null', b'null'), ('a text', b'"saved"'), ('an object without members', b'{}')):
    row('S2 document', 'S2', what + ' in its place', lambda s, text=text: text)
row('S2 document', 'S2', '127 brackets in its place', lambda s: b'[' * 127 + b']' * 127)
row('S2 document', 'S2', 'a list round it', lambda s: b'[' + s.data + b']')
row('S2 document', 'S2', '126 brackets in a member', put('answer', as_it_is('[' * 126 + ']' * 126)))

MEMBERS = {
    'answer': 'text', 'clock': 'whole', 'drawn': 'whole', 'frame': 'whole', 'instances': 'list', 'keys': 'list', 'made': 'list', 'monitors': 'list',
    'mouse': 'list', 'next': 'list', 'project': 'text', 'questions': 'list', 'seed': 'whole', 'threads': 'list', 'timer': 'whole', 'timers': 'list',
    'turbo': 'truth', 'version': 'whole',
}
OF_INSTANCE = {
    'bubble': 'list', 'costume': 'whole', 'direction': 'num', 'size': 'num', 'x': 'num', 'y': 'num', 'edges': 'list', 'effects': 'list', 'lists': 'list',
    'number': 'whole', 'of': 'whole', 'style': 'whole', 'variables': 'list', 'visible': 'truth',
}
OF_THREAD = {'hat': 'whole', 'levels': 'list', 'number': 'whole', 'of': 'whole', 'status': 'text'}
# a number in whole digits alone, from 0 and of 64 bits
NOT_WHOLE = [as_it_is(t) for t in ('1.0', '1e0', '1E2', '-0', '-1', '0.5', '0.0', '18446744073709551616', '1e308', '1e-400')] + ['1', None, True, [0]]
# a number of whole millionths up to 9 * 10^18 in size, or one of three words
NOT_NUM = [as_it_is(t) for t in ('1.0', '1e0', '-0', '0.5', '9000000000000000001', '-9000000000000000001', '1e308')] + ['0', 'Infinity', '+inf', '', None, True, [0]]
NOT = {'whole': NOT_WHOLE, 'num': NOT_NUM, 'text': [0, None, True, [], {}], 'list': [0, None, 'a', {}, False], 'truth': [0, 1, None, 'true', []]}

for where, members in (((), MEMBERS), (('instances', 0), OF_INSTANCE), (('instances', 1), OF_INSTANCE), (('threads', 0), OF_THREAD)):
    for name, shape in members.items():
        rule = 'S2 ' + '/'.join([str(p) for p in where] + [name])
        row(rule, 'S2', 'is missing', out(*where, name))
        row(rule, 'S2', 'has another name', on_tree(lambda t, s, where=where, name=name: place(t, where).update({name.upper(): place(t, where).pop(name)})))
        for value in NOT[shape]:
            row(rule, 'S2', 'is %s' % str(value).strip('@'), put(*where, name, value))
        row('S2 order', 'S2', 'a wrong %s, of another project' % name, lambda s, edit=put(*where, name, {}): (edit(s), s.project.data + b'\n') if edit(s) else None)


def parts(rule, path, values):
    for value in values:
        row(rule, 'S2', '%s is %s' % ('/'.join(map(str, path)), str(value).strip('@')[:40]), put(*path, value))


def added(rule, path, values):
    """Values that cannot stand in a list, put at its end."""
    for value in values:
        row(rule, 'S2', '%s has at its end %s' % ('/'.join(map(str, path)), str(value).replace('@@', '')[:60]), more(*path, value))


parts('S2 mouse', ('mouse',), [[], [0, 0], [0, 0, False, False]])
parts('S2 mouse', ('mouse', 0), [as_it_is('-0'), as_it_is('0.0'), as_it_is('1e1'), 2 ** 63, -2 ** 63 - 1, '0', None])
parts('S2 mouse', ('mouse', 1), [as_it_is('-0'), as_it_is('-1.0'), 2 ** 64, True])
parts('S2 mouse', ('mouse', 2), [0, 'false', None])
parts('S2 next', ('next',), [[], [0, 0], [0, 0, 0, 0]])
for at in range(3):
    parts('S2 next', ('next', at), NOT_WHOLE)
parts('S2 project', ('project',), ['', '0' * 63, '0' * 65, 'A' * 64, 'g' * 64, '0' * 63 + ' '])
row('S2 project', 'S2', 'a digit in upper case', on_tree(lambda t, s: t.update(project=t['project'].upper()) or t['project'] != s.kept['project']))
added('S2 keys', ('keys',), [0, None, ['A']])
added('S2 made', ('made',), [[], ['variable', 0, 0], ['variable', 0, 0, True, True], ['Variable', 0, 0, True], ['variable', as_it_is('0.0'), 0, True], ['list', 0, -1, True], ['list', 0, 0, 1]])
added('S2 monitors', ('monitors',), [0, None, 'true'])
added('S2 questions', ('questions',), [[], [0, 0, ''], [0, 0, '', True, True], [-1, 0, '', True], [0, as_it_is('-0'), '', True], [0, 0, 0, True], [0, 0, '', 0]])
added('S2 timers', ('timers',), [[], [0, 0, 0], [0, 0, 0, 0, 0], ['Inf', 0, 0, 0], [as_it_is('0.5'), 0, 0, 0], [0, -1, 0, 0], [0, 0, as_it_is('1e0'), 0], [0, 0, 0, '0'], [9 * 10 ** 18 + 1, 0, 0, 0]])
added('S2 threads', ('threads',), [0, None, [], {}])
added('S2 instances', ('instances',), [0, None, [], {}])
parts('S2 bubble', ('instances', 0, 'bubble'), [[], ['say', ''], ['say', '', 0, 0], ['Say', '', 0], ['ask', '', 0], ['say', 0, 0], ['say', '', -1], ['think', '', as_it_is('0e0')]])
parts('S2 edges', ('instances', 0, 'edges'), [[[0]], [[0, True, True]], [[0, 1]], [[-1, True]], [[1, True], [0, True]], [[1, True], [1, True]], [0]])
parts('S2 effects', ('instances', 0, 'effects'), [[], [0] * 6, [0] * 8, [0] * 6 + ['0'], [as_it_is('0.0')] + [0] * 6])
parts('S2 values', ('instances', 0, 'variables'), [[0], [None], [[]], [[0, 0]], [['0']], [[as_it_is('0.5')]], [{}]])
parts('S2 values', ('instances', 0, 'lists'), [[0], [''], [[0]], [[None]], [[[as_it_is('-0')]]], [[['Inf']]], [[[0, 0]]]])
parts('S2 style', ('instances', 0, 'style'), [3, 'all around'])
parts('S2 status', ('threads', 0, 'status'), ['', 'runs', 'Run', 'done', 'yield'])
parts('S2 levels', ('threads', 0, 'levels'), [[0], [None], [[]], [[0]], [[0, None, None]], [[-1, None]], [['0', None]], [[as_it_is('0.0'), None]]])
for context in (
    0, 'loop', True, {}, [], [None], [0], ['Loop'], ['done'], ['loop', 0], ['repeat'], ['repeat', 1, 1], ['repeat', '1'], ['repeat', '-inf'], ['repeat', 'nan'],
    ['repeat', as_it_is('1.0')], ['repeat', as_it_is('1e0')], ['repeat', as_it_is('-0')], ['repeat', 9 * 10 ** 12 + 1], ['repeat', -9 * 10 ** 12 - 1], ['repeat', None],
    ['wait', 0], ['wait', 0, 0, 0], ['wait', -1, 0], ['wait', as_it_is('0.0'), 0], ['wait', 0, 'Inf'], ['wait', 0, as_it_is('0.5')], ['wait', 'inf', 0],
    ['glide', 0, 1, 0, 0, 0], ['glide', 0, 1, 0, 0, 0, 0, 0], ['glide', 0, 1, 0, 0, 0, as_it_is('-0')], ['glide', -1, 1, 0, 0, 0, 0], ['glide', 0, '1', 0, 0, 0, 0],
    ['started'], ['started', 0], ['started', [], []], ['started', [-1]], ['started', [as_it_is('1.0')]], ['started', [None]],
    ['asked', 0], ['spoken', ''], ['call'], ['call', {}], ['call', [], []], ['call', ['n']], ['call', [['n']]], ['call', [['n', 0]]], ['call', [[0, '']]], ['call', [['n', '', '']]],
):
    row('S2 contexts', 'S2', 'context ' + json.dumps(context).replace('@@', ''), put('threads', 0, 'levels', -1, 1, context))
row('S2 order', 'S2', 'a clock past its limit, and no turbo', on_tree(lambda t, s: t.update(clock=9 * 10 ** 12 + 1) or t.pop('turbo') and None))
row('S2 order', 'S2', 'no turbo, and a space behind it', lambda s: out('turbo')(s) + b' ')
row('S2 order', 'S2', 'turbo twice, the later is a number', lambda s: s.data[:-1] + b',"turbo":0}')

# the limits of the shapes themselves
row('S2 limits', ACCEPTED, 'seed 2^64 - 1', put('seed', 2 ** 64 - 1))
row('S2 limits', ACCEPTED, 'seed 0', put('seed', 0))
for value in (9 * 10 ** 18, -9 * 10 ** 18, 'inf', '-inf', 'nan', -1):
    row('S2 limits', ACCEPTED, 'x of a sprite is %s' % value, on_tree(lambda t, s, value=value: next(i for i in t['instances'] if i['of'] != s.project.stage).update(x=value)))
row('S2 limits', 'S5', 'mouse 2^63 - 1', put('mouse', 0, 2 ** 63 - 1))
row('S2 limits', 'S5', 'mouse -2^63', put('mouse', 1, -2 ** 63))
row('S2 limits', 'S5', 'clock 2^64 - 1', put('clock', 2 ** 64 - 1))
row('S2 limits', ACCEPTED, 'style 2', put('instances', 0, 'style', 2))

# -- S4: another project

for what, change in (('the first digit', lambda p: '%x' % (int(p[0], 16) ^ 1) + p[1:]), ('the last digit', lambda p: p[:-1] + '%x' % (int(p[-1], 16) ^ 8)), ('all digits', lambda p: '0' * 64), ('the order of the digits', lambda p: p[::-1])):
    row('S4', 'S4', what + ' of the digest', on_tree(lambda t, s, change=change: t.update(project=change(t['project'])) or t['project'] != s.kept['project']))
for what, change in (('a space behind the project', lambda p: p + b' '), ('a line feed behind the project', lambda p: p + b'\n'), ('a space in front of the project', lambda p: b' ' + p), ('a member more in the project', lambda p: p.rstrip()[:-1] + b',"zzz":0}')):
    row('S4', 'S4', what, lambda s, change=change: (s.data, change(s.project.data)))
row('S4', 'S4', 'another project, and a clock past its limit', lambda s: (put('clock', 9 * 10 ** 12 + 1)(s), s.project.data + b' '))
row('S4', 'S4', 'another project, and a thread without levels', lambda s: put('threads', 0, 'levels', [])(s) and (put('threads', 0, 'levels', [])(s), s.project.data + b' '))
row('S4', 'S4', 'another project, and a space behind the saved run', lambda s: (s.data + b' ', s.project.data + b' '))

# -- S7: written in another way


def last_first(tree, save):
    for name in list(tree)[:-1]:
        tree[name] = tree.pop(name)


def member_order(path):
    def change(tree, save):
        tree = place(tree, path)
        last_first(tree, save)
    return on_tree(change)




for what, change in (
    ('a space behind it', lambda d: d + b' '), ('a space in front of it', lambda d: b' ' + d), ('a line feed behind it', lambda d: d + b'\n'),
    ('a carriage return and a line feed behind it', lambda d: d + b'\r\n'), ('a tab in front of it', lambda d: b'\t' + d),
    ('a space behind a colon', lambda d: d.replace(b'"answer":', b'"answer": ', 1)), ('a space in front of a colon', lambda d: d.replace(b'"version":', b'"version" :', 1)),
    ('a space behind a comma', lambda d: d.replace(b',"clock"', b', "clock"', 1)), ('a line feed behind a brace', lambda d: b'{\n' + d[1:]),
    ('a space in an empty list', lambda d: d.replace(b'[]', b'[ ]', 1) if b'[]' in d else None),
    ('\\u0061nswer for answer', lambda d: d.replace(b'"answer"', b'"\\u0061nswer"', 1)),
    ('an escape in the word run', lambda d: d.replace(b'"run"', b'"r\\u0075n"', 1) if b'"run"' in d else None),
    ('an escape in the word say', lambda d: d.replace(b'["say"', b'["\\u0073ay"', 1) if b'["say"' in d else None),
    ('an escape in the digest', lambda d: d[:d.index(b'"project":"') + 11] + b'\\u00%02x' % d[d.index(b'"project":"') + 11] + d[d.index(b'"project":"') + 12:]),
    ('answer twice', lambda d: b'{"answer":"a",' + d[1:]), ('answer twice, the first a number', lambda d: b'{"answer":5,' + d[1:]),
    ('version twice, the first 2', lambda d: b'{"version":2,' + d[1:]), ('version twice, both 1', lambda d: d[:-1] + b',"version":1}'),
    ('a further member', lambda d: d[:-1] + b',"zzz":0}'), ('a further member in front', lambda d: b'{"a":null,' + d[1:]),
    ('brackets that nest 127 deep in a further member', lambda d: d[:-1] + b',"zzz":' + b'[' * 126 + b']' * 126 + b'}'),
    ('a further member of an instance', lambda d: d.replace(b'{"bubble":', b'{"a":0,"bubble":', 1)),
    ('a further member of a thread', lambda d: d.replace(b'"status":"run"', b'"status":"run","zzz":0', 1) if b'"status":"run"' in d else None),
):
    row('S7', 'S7', what, bytes_of(change))
row('S7', 'S7', 'with spaces of another program', lambda s: json.dumps(s.kept, ensure_ascii=False).encode())
row('S7', 'S7', 'with line feeds of another program', lambda s: json.dumps(s.kept, ensure_ascii=False, indent=1).encode())
row('S7', 'S7', 'version and turbo in turn', lambda s: s.data.replace(b'"turbo":true,"version":1', b'"version":1,"turbo":true').replace(b'"turbo":false,"version":1', b'"version":1,"turbo":false'))
row('S7', 'S7', 'the last member first', member_order(()))
row('S7', 'S7', 'the last member of an instance first', member_order(('instances', 0)))
row('S7', 'S7', 'the last member of a thread first', member_order(('threads', 0)))
for what, text in (
    ('/ as \\/', '\\/'), ('a as \\u0061', '\\u0061'), ('é as \\u00e9', '\\u00e9'), ('a cat as two escapes', '\\ud83d\\udc31'), ('a line feed as \\u000a', '\\u000a'),
    ('" as \\u0022', '\\u0022'), ('\\ as \\u005c', '\\u005c'), ('U+001F in capitals', '\\u001F'), ('U+0008 as \\u0008', '\\u0008'), ('U+007F as an escape', '\\u007f'),
):
    row('S7', 'S7', 'answer: ' + what, put('answer', as_it_is('"%s"' % text)))
for what, text in (('U+001F', '\\u001f'), ('a line feed', '\\n'), ('U+0008', '\\b'), ('U+007F as it is', '\x7f'), ('/', '/'), ('U+2028 as it is', '\u2028'), ('a cat as it is', '\U0001f431'), ('U+0000', '\\u0000')):
    row('S7', ACCEPTED, 'answer: %s as the player writes it' % what, put('answer', as_it_is('"%s"' % text)))
