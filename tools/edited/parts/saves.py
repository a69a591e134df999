"""Saved runs of the cases and samples: each is played to somewhere in its middle, and saved there."""
import json
import os
import re
import shutil
import subprocess

from parts.projects import Project

# a longer saved run is left out: it would only take longer to edit
LONGEST = 10000
# a number or another piece of JSON text that is to stand in the text just so
AS_IT_IS = re.compile('"@@(.*?)@@"')


def as_it_is(text):
    return '@@%s@@' % text


def written(tree):
    """The bytes of a tree as the player writes them, but for the pieces that are to stand as they are."""
    text = json.dumps(tree, separators=(',', ':'), ensure_ascii=False)
    return AS_IT_IS.sub(lambda found: json.loads('"%s"' % found.group(1)), text).encode()


class Save:
    """A saved run: its name, its project and its bytes."""

    def __init__(self, name, project, data):
        self.name = name
        self.project = project
        self.data = data
        self.kept = json.loads(data)

    def tree(self):
        return json.loads(self.data)


def call(player, folder, *words, seconds=10):
    return subprocess.run([player, *words], cwd=folder, stdin=subprocess.DEVNULL, stdout=subprocess.PIPE, stderr=subprocess.PIPE, timeout=seconds)


def read(path):
    with open(path, 'rb') as f:
        return f.read()


def sources(examples):
    """The names, folders and seeds of the cases and samples that play."""
    for name in sorted(os.listdir(examples)):
        folder = os.path.join(examples, name)
        if os.path.isfile(os.path.join(folder, 'expected.txt')):
            seed = os.path.join(folder, 'seed')
            yield name, folder, read(seed).decode().strip() if os.path.isfile(seed) else '1'
    for name in sorted(os.listdir(os.path.join(examples, 'cases'))):
        folder = os.path.join(examples, 'cases', name)
        if not os.path.isdir(folder):
            continue
        words = read(os.path.join(folder, 'args')).decode('utf-8', 'replace').split('\n')
        if words[0] == 'play' and len(words) == 6 and read(os.path.join(folder, 'status')) == b'0\n' and os.path.isfile(os.path.join(folder, 'script.txt')):
            yield name, folder, words[3]


def cut_scripts(script):
    """Scripts that end in the middle: behind at most ten of the lines, and behind a frame of one, two or five passes."""
    lines = script.split(b'\n')
    lines = lines[:-1] if lines[-1] == b'' else lines
    places = sorted({round(i * len(lines) / 10) for i in range(1, 10)} | {1, len(lines) - 1}) if len(lines) > 10 else range(1, len(lines))
    for at in places:
        yield 'behind line %d' % at, b'\n'.join(lines[:at]) + b'\n'
    frames = [i for i, line in enumerate(lines) if line.startswith(b'frame ')]
    for at in frames[:1] + frames[-1:]:
        for passes in (b'1', b'2', b'5'):
            words = lines[at].split(b' ')
            yield 'line %d with %s passes' % (at + 1, passes.decode()), b'\n'.join(lines[:at] + [b' '.join([b'frame', words[1], passes, words[3]])]) + b'\n'


def saves_of(player, room, source):
    """The saved runs of one case or sample, without those that are the same."""
    name, folder, seed = source
    data = read(os.path.join(folder, 'project.json'))
    place = os.path.join(room, name)
    os.mkdir(place)
    shutil.copyfile(os.path.join(folder, 'project.json'), os.path.join(place, 'project.json'))
    found, seen, kept = [], set(), os.path.join(place, 'kept')
    for what, script in cut_scripts(read(os.path.join(folder, 'script.txt'))):
        with open(os.path.join(place, 'script.txt'), 'wb') as f:
            f.write(script)
        if os.path.isfile(kept):
            os.remove(kept)
        done = call(player, place, 'play', 'project.json', 'script.txt', seed, 'kept', seconds=100)
        if done.returncode == 0 and os.path.getsize(kept) <= LONGEST and read(kept) not in seen:
            seen.add(read(kept))
            found.append(Save('%s, %s' % (name, what), Project(data), read(kept)))
    return found


def in_turns(lists):
    """The items of some lists, one of each in turn."""
    longest = max(map(len, lists), default=0)
    return [items[at] for at in range(longest) for items in lists if at < len(items)]
