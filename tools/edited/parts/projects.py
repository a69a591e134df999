"""What the rules on saved runs need of a project file, read as docs/formats.md, section 1, says."""
import json

HATS = {
    'event_whenflagclicked', 'event_whenthisspriteclicked', 'event_whenstageclicked', 'control_start_as_clone', 'event_whenbroadcastreceived',
    'event_whenbackdropswitchesto', 'event_whenkeypressed', 'event_whengreaterthan',
}
# what a command does with its thread; all that are not here are plain
KINDS = {
    'control_if': 'choice', 'control_if_else': 'choice', 'control_forever': 'endless', 'control_repeat_until': 'endless', 'control_repeat': 'counted',
    'procedures_call': 'call', 'control_wait': 'wait', 'motion_glidesecstoxy': 'glide', 'motion_glideto': 'glide', 'event_broadcastandwait': 'starts',
    'looks_switchbackdroptoandwait': 'starts', 'sensing_askandwait': 'ask', 'looks_sayforsecs': 'speak', 'looks_thinkforsecs': 'speak',
}


class Target:
    """A target: its blocks by their numbers."""

    def __init__(self, target):
        ids = list(target['blocks'])
        self.is_stage = target['isStage']
        self.costumes = len(target['costumes'])
        self.blocks = [target['blocks'][i] for i in ids]
        self.place = {name: at for at, name in enumerate(ids)}
        self.hats = [n for n in range(len(ids)) if self.op(n) in HATS and self.blocks[n].get('topLevel')]
        self.edge_hats = [n for n in self.hats if self.op(n) == 'event_whengreaterthan']
        self.definitions = [n for n in range(len(ids)) if self.op(n) == 'procedures_definition' and self.blocks[n].get('topLevel')]

    def op(self, n):
        return self.blocks[n]['opcode'] if isinstance(self.blocks[n], dict) else ''

    def kind(self, n):
        return KINDS.get(self.op(n), 'plain')

    def link(self, n, name):
        """The block that an input of block n names, or None."""
        held = (self.blocks[n].get('inputs') or {}).get(name)
        return self.place.get(held[1]) if held and isinstance(held[1], str) else None

    def chain(self, n):
        """The blocks from n down."""
        found = []
        while n is not None:
            found.append(n)
            below = self.blocks[n].get('next')
            n = self.place.get(below) if below else None
        return found

    def script(self, hat):
        """The blocks under a hat."""
        return self.chain(hat)[1:]

    def mutation(self, n):
        return self.blocks[n].get('mutation') or {}

    def called(self, n):
        """The definition that block n calls, the first of its code, and the names of its parameters; or None."""
        for d in self.definitions if self.kind(n) == 'call' else []:
            prototype = self.link(d, 'custom_block')
            if prototype is not None and self.mutation(prototype)['proccode'] == self.mutation(n)['proccode']:
                return d, list(dict.fromkeys(json.loads(self.mutation(prototype)['argumentnames'])))
        return None

    def over(self, n):
        """The blocks that may stand over block n: those of its branches, or of the procedure that it calls."""
        called = self.called(n)
        if called:
            return self.chain(called[0])
        branches = [self.link(n, name) for name in (self.blocks[n].get('inputs') or {}) if name.startswith('SUBSTACK')]
        return [b for start in branches if start is not None for b in self.chain(start)]


class Project:
    """A project: its targets in the order of the file."""

    def __init__(self, data):
        self.data = data
        self.targets = [Target(t) for t in json.loads(data)['targets']]
        self.stage = [t.is_stage for t in self.targets].index(True)
