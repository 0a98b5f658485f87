'''Characters into telegrams. The words are those of `ringplay decode`.'''

import sigrokdecode as srd

SHORT, VAR, FIXED, TOKEN, ACK, END = 0x10, 0x68, 0xA2, 0xDC, 0xE5, 0x16
HEADS = {SHORT: 'short', VAR: 'var', FIXED: 'fixed'}

# The bits of a character, and how many bits of silence end a telegram: its characters follow one another with none.
CHARACTER = 11
SILENCE = 11

TELEGRAM, FIELD, FAULT = range(3)


class Decoder(srd.Decoder):
    api_version = 3
    id = 'profibus_fdl'
    name = 'PROFIBUS FDL'
    longname = 'PROFIBUS data link layer'
    desc = 'Telegrams of IEC 61158 type 3 (FDL).'
    license = 'gplv2+'
    inputs = ['uart']
    outputs = []
    tags = ['Embedded/industrial']
    options = ({'id': 'line', 'desc': 'Line', 'default': 'rx', 'values': ('rx', 'tx')},)
    annotations = (('telegram', 'Telegram'), ('field', 'Field'), ('fault', 'Fault'))
    annotation_rows = (
        ('telegrams', 'Telegrams', (TELEGRAM,)),
        ('fields', 'Fields', (FIELD,)),
        ('faults', 'Faults', (FAULT,)),
    )

    def __init__(self):
        self.reset()

    def reset(self):
        # The characters so far: first sample, last sample, octet; None for one that was damaged.
        self.characters = []

    def start(self):
        self.out = self.register(srd.OUTPUT_ANN)
        self.line = 0 if self.options['line'] == 'rx' else 1

    def decode(self, ss, es, data):
        what, line, value = data
        if line == self.line and what == 'FRAME':
            octet, is_valid = value
            self.take(ss, es, octet if is_valid else None)

    def take(self, ss, es, octet):
        bit = (es - ss) / CHARACTER
        if self.characters and ss - self.characters[-1][1] >= SILENCE * bit:
            self.finish()
        self.characters.append((ss, es, octet))
        if len(self.characters) == need(self.octets()):
            self.finish()

    def octets(self):
        return [0 if octet is None else octet for _, _, octet in self.characters]

    def end(self):
        # Called behind the last sample, by libsigrokdecode 0.6 and later.
        if self.characters:
            self.finish()

    def finish(self):
        characters, self.characters = self.characters, []
        first, last = characters[0][0], characters[-1][1]
        octets = [octet for _, _, octet in characters]
        if None in octets:
            self.put(first, last, self.out, [FAULT, ['Faulty %d' % octets.index(None), 'Faulty']])
            return
        fault = fault_of(octets)
        if fault:
            self.put(first, last, self.out, [FAULT, [fault]])
            return
        self.put(first, last, self.out, [TELEGRAM, words(octets)])
        for begin, end, texts in fields(octets):
            self.put(characters[begin][0], characters[end - 1][1], self.out, [FIELD, texts])


def need(octets):
    '''How many octets a telegram has that begins like this: one, where no telegram does.'''
    if octets[0] == VAR:
        return octets[1] + 6 if len(octets) > 1 and 4 <= octets[1] <= 249 else 4
    return {SHORT: 6, FIXED: 14, TOKEN: 3}.get(octets[0], 1)


def head(octets):
    '''The index of the destination address.'''
    return 4 if octets[0] == VAR else 1


def fault_of(octets):
    '''The first fault, named as `ringplay decode` names it; None for a telegram.'''
    start, count = octets[0], len(octets)
    if start not in (*HEADS, TOKEN, ACK):
        return 'BadStart'
    if count < need(octets):
        return 'Truncated'
    if start == VAR and not 4 <= octets[1] <= 249:
        return 'BadLength'
    if start == VAR and octets[2] != octets[1]:
        return 'LengthsDiffer'
    if start == VAR and octets[3] != VAR:
        return 'BadSecondStart'
    if start == TOKEN and max(octets[1:3]) > 126:
        return 'BadAddress'
    if start in HEADS:
        da = head(octets)
        if octets[da + 1] % 128 == 127:
            return 'BadAddress'
        if octets[da + 2] >= 128:
            return 'BadFc'
        if octets[-2] != sum(octets[da:-2]) % 256:
            return 'BadFcs'
        if octets[-1] != END:
            return 'BadEnd'
    return None


def address(octet):
    return '%d%s' % (octet % 128, '+' if octet >= 128 else '')


def words(octets):
    '''The words of a telegram, the longest first.'''
    start = octets[0]
    if start == ACK:
        return ['ack', 'A']
    if start == TOKEN:
        return ['token da=%d sa=%d' % (octets[1], octets[2]), 'token %d' % octets[1], 'T']
    da = head(octets)
    text = '%s da=%s sa=%s fc=%02x' % (HEADS[start], address(octets[da]), address(octets[da + 1]), octets[da + 2])
    if start != SHORT:
        text += ' unit=' + bytes(octets[da + 3:-2]).hex()
    kind = 'request' if octets[da + 2] & 0x40 else 'reply'
    return [text, '%s %d' % (kind, octets[da] % 128), kind[:3].capitalize()]


def fields(octets):
    '''The fields: begin, end and texts.'''
    if octets[0] == ACK:
        return [(0, 1, ['SC'])]
    da = head(octets)
    found = [(0, 1, ['SD'])]
    if octets[0] == VAR:
        found += [(1, 2, ['LE %d' % octets[1], 'LE']), (2, 3, ['LEr']), (3, 4, ['SD'])]
    found += [(da, da + 1, ['DA %s' % address(octets[da]), 'DA']), (da + 1, da + 2, ['SA %s' % address(octets[da + 1]), 'SA'])]
    if octets[0] == TOKEN:
        return found
    found.append((da + 2, da + 3, ['FC %02x' % octets[da + 2], 'FC']))
    if octets[0] != SHORT:
        found.append((da + 3, len(octets) - 2, ['unit ' + bytes(octets[da + 3:-2]).hex(), 'unit']))
    return found + [(len(octets) - 2, len(octets) - 1, ['FCS']), (len(octets) - 1, len(octets), ['ED'])]
