"""Runs the program on inputs derived from good scripts, and compares its exit status and both streams with what must come.

Which inputs are scripts a second reader decides, and of the others the first wrong line and its first cause, written here from
docs/SCRIPT.md alone. Where an input is known to be good or bad
from the way it was made, that is compared too. Words: the program's path, and `kinds` for a line of counts for each kind of input.
"""

import collections
import concurrent.futures
import pathlib
import random
import re
import subprocess
import sys

LIMIT = 1048576
WORKERS = 4
SHOWN = 5
SCRIPT, WRONG, TOO_BIG = 'a script', 'no script', 'too big'
FORM, RANGE, TWICE, NEST, MISSING = 'form', 'range', 'twice', 'nest', 'missing'


# The reader. It takes the words of a line, which one space parts: so two spaces have an empty word between them. A test of a word
# gives None where the word has not the form, and else whether it is in its range.

NUMBER = re.compile(rb'0|[1-9][0-9]*')
DATA = re.compile(rb'x([0-9a-f]{2}){0,1024}')


def within(low, high):
    """A number of this range. Above all ranges are the numbers of more than 20 digits."""
    return lambda word: None if NUMBER.fullmatch(word) is None else len(word) <= 20 and low <= int(word) <= high


def one_of(*words):
    return lambda word: True if word in words else None


def all_of(tests):
    """The answer to several tests: a word that has not the form counts more than one that is out of its range."""
    answers = list(tests)
    return None if None in answers else all(answers)


def is_address(word):
    parts = word.split(b'.')
    return all_of(within(0, 255)(part) for part in parts) if len(parts) == 4 else None


def is_node_address(word):
    answer = is_address(word)
    return answer and word != b'0.0.0.0'


def is_destination(word):
    parts = word.split(b':')
    return all_of([is_address(parts[0]), within(0, 65535)(parts[1])]) if len(parts) == 2 else None


def is_destination_or_peer(word):
    return True if word == b'peer' else is_destination(word)


def is_data(word):
    return True if word == b'buf' or DATA.fullmatch(word) else None


def is_time_out(word):
    return True if word in (b'pol', b'nblk', b'fevr') else within(1, 1000000)(word)


is_word32 = within(0, 2**32 - 1)
is_port = within(0, 65535)

CALLS = {
    b'act_tsk': [is_word32],
    b'can_act': [is_word32],
    b'ext_tsk': [],
    b'ter_tsk': [is_word32],
    b'chg_pri': [is_word32, is_word32],
    b'get_pri': [is_word32],
    b'tslp_tsk': [is_time_out],
    b'wup_tsk': [is_word32],
    b'can_wup': [is_word32],
    b'rel_wai': [is_word32],
    b'sus_tsk': [is_word32],
    b'rsm_tsk': [is_word32],
    b'frsm_tsk': [is_word32],
    b'dly_tsk': [within(0, 1000000)],
    b'rot_rdq': [is_word32],
    b'get_tid': [],
    b'sig_sem': [is_word32],
    b'twai_sem': [is_word32, is_time_out],
    b'set_flg': [is_word32, is_word32],
    b'clr_flg': [is_word32, is_word32],
    b'twai_flg': [is_word32, is_word32, one_of(b'and', b'or'), is_time_out],
    b'tsnd_dtq': [is_word32, is_word32, is_time_out],
    b'fsnd_dtq': [is_word32, is_word32],
    b'trcv_dtq': [is_word32, is_time_out],
    b'set_tim': [within(0, 2**63 - 1)],
    b'get_tim': [],
    b'sta_cyc': [is_word32],
    b'stp_cyc': [is_word32],
    b'tcp_cre_rep': [is_word32, is_port],
    b'tcp_del_rep': [is_word32],
    b'tcp_cre_cep': [is_word32, is_word32, is_word32, is_word32],
    b'tcp_del_cep': [is_word32],
    b'tcp_acp_cep': [is_word32, is_word32, is_time_out],
    b'tcp_con_cep': [is_word32, is_port, is_destination, is_time_out],
    b'tcp_sht_cep': [is_word32],
    b'tcp_cls_cep': [is_word32, is_time_out],
    b'tcp_snd_dat': [is_word32, is_data, is_time_out],
    b'tcp_rcv_dat': [is_word32, is_word32, is_time_out],
    b'tcp_get_buf': [is_word32, is_time_out],
    b'tcp_snd_buf': [is_word32, is_data],
    b'tcp_rcv_buf': [is_word32, is_time_out],
    b'tcp_rel_buf': [is_word32, is_word32],
    b'tcp_can_cep': [is_word32, one_of(b'all', b'acp_cep', b'con_cep', b'cls_cep', b'snd_dat', b'rcv_dat', b'get_buf', b'rcv_buf')],
    b'udp_cre_cep': [is_word32, is_port, is_word32],
    b'udp_del_cep': [is_word32],
    b'udp_snd_dat': [is_word32, is_destination_or_peer, is_data, is_time_out],
    b'udp_rcv_dat': [is_word32, is_word32, is_time_out],
    b'udp_can_cep': [is_word32, one_of(b'all', b'snd_dat', b'rcv_dat')],
}

STEPS = {
    b'fill': [within(0, 65280)],
    b'loop': [within(1, 65535)],
    b'pool': [],
    b'until': [one_of(b'end', b'fail', b'empty')],
}

DECLARATIONS = {
    b'sem': [within(1, 16), one_of(b'fifo', b'pri'), within(0, 65535), within(1, 65535)],
    b'flg': [within(1, 16), one_of(b'fifo', b'pri'), one_of(b'one', b'many'), one_of(b'clr', b'keep'), is_word32],
    b'dtq': [within(1, 16), one_of(b'fifo', b'pri'), within(0, 1024)],
    b'task': [within(1, 16), within(1, 16), one_of(b'act', b'dor')],
    b'cyc': [within(1, 8), within(1, 1000000), within(0, 1000000), one_of(b'on', b'off')],
    b'cbr': [within(1, 16)],
}

HEAD = [
    {b'itron': [one_of(b'1')]},
    {b'link': [within(0, 2**64 - 1), within(0, 16), within(0, 16), within(0, 1000)]},
    {b'ticks': [within(0, 400000)]},
    {b'node': [one_of(b'0'), is_node_address, is_word32, within(0, 2000000000)]},
]
SECOND = {b'node': [one_of(b'1'), is_node_address, is_word32, within(0, 2000000000)]}

WITH_BODY = (b'task', b'cyc', b'cbr')


def answer_of(forms, words):
    """Whether words are a line of one of these forms whose numbers are in their ranges; None where they have none of the forms."""
    tests = forms.get(words[0])
    return all_of(test(word) for test, word in zip(tests, words[1:])) if tests is not None and len(words) == len(tests) + 1 else None


class Reader:
    """A script so far. Each kind of place has a method that gives a line's first cause, or None after it has taken the line."""

    def __init__(self):
        self.head = 0
        self.address = None
        self.second = False
        self.declared = set()
        self.owner = None
        self.body = 0
        self.loops = 0

    def whole(self):
        return self.second and self.owner is None

    def take(self, line):
        words = line.split(b' ')
        if self.head < len(HEAD):
            return self.take_head(words)
        if self.owner is not None:
            return self.take_in_body(line, words)
        return self.take_node(words) if words[0] == b'node' else self.take_declaration(words)

    def take_head(self, words):
        answer = answer_of(HEAD[self.head], words)
        if answer is None:
            return FORM
        if not answer or (words[0] == b'link' and int(words[2]) + int(words[3]) > 16):
            return RANGE
        self.head += 1
        self.address = words[2] if words[0] == b'node' else None
        return None

    def take_node(self, words):
        answer = None if self.second else answer_of(SECOND, words)
        if answer is None:
            return FORM
        if not answer or words[2] == self.address:
            return RANGE
        self.second = True
        self.declared = set()
        return None

    def take_declaration(self, words):
        answer = answer_of(DECLARATIONS, words)
        if answer is None:
            return FORM
        if not answer or (words[0] == b'sem' and int(words[3]) > int(words[4])):
            return RANGE
        if (words[0], words[1]) in self.declared:
            return TWICE
        self.declared.add((words[0], words[1]))
        if words[0] in WITH_BODY:
            self.owner, self.body, self.loops = words[0], 0, 0
        return None

    def take_in_body(self, line, words):
        if line == b'end':
            if self.loops > 0:
                return NEST
            self.owner = None
            return None
        answer = answer_of(STEPS if words[0] in STEPS else CALLS, words)
        if answer is None or (line == b'ext_tsk' and self.owner != b'task'):
            return FORM
        if not answer or self.body == 1000:
            return RANGE
        if (words[0] in (b'pool', b'until') and self.loops == 0) or (words[0] == b'loop' and self.loops == 4):
            return NEST
        self.body += 1
        self.loops += {b'loop': 1, b'pool': -1}.get(words[0], 0)
        return None


def is_skipped(line):
    return not line or line.startswith(b'#')


def kept(text):
    """The lines that aren't skipped, without their LF."""
    return [line for line in text.split(b'\n') if not is_skipped(line)]


def verdict(text):
    """What the text is: a script, too big, or the first wrong line with its first cause."""
    if len(text) > LIMIT:
        return TOO_BIG
    reader = Reader()
    lines = text.split(b'\n')
    for number, line in enumerate(lines[:-1], 1):
        cause = None if is_skipped(line) else reader.take(line)
        if cause is not None:
            return number, cause
    return SCRIPT if lines[-1] == b'' and reader.whole() else (len(lines), MISSING)


def agrees(known, wanted):
    """Whether what is known of an input from the way it was made agrees with the reader."""
    return known is None or wanted == known or (known == WRONG and isinstance(wanted, tuple))


def refusal(wanted):
    """The exit status and the line on standard error."""
    if wanted == SCRIPT:
        return 0, b''
    return (10, b'input too big\n') if wanted == TOO_BIG else (3, f'line {wanted[0]}: {wanted[1]}\n'.encode())


# The inputs. Each has a kind, a name, its bytes, and a verdict where one is known from the way it was made.

Input = collections.namedtuple('Input', 'kind name text known')

# Many of its numbers are the greatest of their ranges. Lines that are skipped stand everywhere, with bytes of every sort.
LIMITS = b'''# \x00\x01\t\r\x7f\x80\xfe\xff
itron 1

link 18446744073709551615 0 0 0
ticks 20
#node 0 10.0.0.3 0 0
node 0 10.0.0.1 4294967295 2000000000
sem 16 fifo 1 65535
task 16 1 act
# The second wait ends by time.
twai_sem 16 pol
twai_sem 16 5

dly_tsk 10
twai_sem 16 1000000
end
task 1 16 act
udp_cre_cep 1 65535 0
sig_sem 4294967295
udp_snd_dat 1 255.0.10.255:65535 x00ff 1000000
end
node 1 10.0.0.2 0 0
flg 16 pri many keep 4294967295
dtq 16 pri 1024
task 1 2 act
#end
udp_rcv_dat 1 4294967295 nblk
udp_can_cep 4294967295 rcv_dat
sta_cyc 4294967295
twai_sem 1 fevr
set_tim 9223372036854775807
twai_flg 16 4294967295 and fevr
tsnd_dtq 16 4294967295 nblk
ext_tsk
chg_pri 4294967295 0
end
task 16 16 dor
end
sem 1 fifo 1 1
flg 1 fifo one clr 0
dtq 1 fifo 0
cyc 8 1000000 1000000 off
stp_cyc 8
end
cbr 16
udp_del_cep 4294967295
end

# Nothing follows.
'''

VALUES = [b'', b'0', b'00', b'01', b'+1', b'-1', b'1', b'2', b'16', b'17', b'255', b'256', b'1024', b'1025', b'65535',
          b'65536', b'400000', b'400001', b'1000000', b'1000001', b'2000000000', b'2000000001', b'4294967295', b'4294967296',
          b'9223372036854775807', b'9223372036854775808', b'18446744073709551615', b'18446744073709551616', b'9' * 5000]


# Each line that a body may have, in tasks that never run.
LANGUAGE = b'''itron 1
link 0 8 8 1000
ticks 5
node 0 10.0.0.1 0 0
task 1 1 act
fill 3
loop 1
until empty
udp_snd_dat 1 peer buf pol
pool
end
task 2 2 dor
fill 65280
loop 65535
loop 1
loop 2
loop 3
until end
until fail
pool
until empty
pool
pool
pool
tcp_cre_rep 1 80
tcp_del_rep 1
tcp_cre_cep 1 1024 1024 0
tcp_del_cep 1
tcp_acp_cep 1 1 fevr
tcp_con_cep 1 0 10.0.0.2:80 5
tcp_sht_cep 1
tcp_cls_cep 1 nblk
tcp_snd_dat 1 buf fevr
tcp_snd_dat 1 x00 pol
tcp_rcv_dat 1 10 fevr
tcp_get_buf 1 fevr
tcp_snd_buf 1 buf
tcp_snd_buf 1 x
tcp_rcv_buf 1 fevr
tcp_rel_buf 1 4
tcp_can_cep 1 get_buf
udp_snd_dat 1 10.0.0.2:9 buf fevr
udp_snd_dat 1 peer x01 fevr
end
cyc 1 1000000 0 off
loop 2
pool
end
node 1 10.0.0.2 0 0
cbr 1
loop 2
until end
sig_sem 1
pool
end
'''

WORDS = [b'buf', b'peer', b'loop', b'pool', b'until', b'fill', b'empty', b'fail', b'pol', b'nblk', b'fevr', b'FEVR', b'act', b'fifo', b'x', b'x0', b'xab', b'xAB', b'x0g', b'0.0.0.0', b'10.0.0.1', b'10.0.0.2',
         b'10.0.0.2.', b'0.0.0.0:0', b'10.0.0.2:65536', b'sem', b'flg', b'dtq', b'task', b'end', b'node', b'sig_sem', b'ext_tsk',
         b'get_tid', b'tcp_del_rep', b'cyc', b'cbr', b'on', b'all', b'pri', b'many', b'keep', b'dor', b'or', b'#', b'\t']


def lines_of(text):
    """The lines of a text that ends with LF, each with its own."""
    return [line + b'\n' for line in text.split(b'\n')[:-1]]


def prefixes(name, text):
    """A prefix is a script exactly where it ends with a line, and the last line kept is the one of node 1 or ends a declaration."""
    for size in range(len(text) + 1):
        part = text[:size]
        lines = kept(part)
        at_end = (part.endswith(b'\n') and any(line.startswith(b'node 1') for line in lines)
                  and re.match(rb'node 1|(sem|flg|dtq) |end$', lines[-1]) is not None)
        yield Input('prefixes', f'the first {size} bytes of {name}', part, SCRIPT if at_end else WRONG)


def changed_lines(name, text):
    lines = lines_of(text)
    for at, line in enumerate(lines):
        before, after = lines[:at], lines[at + 1:]
        yield Input('lines dropped', f'{name} without line {at + 1}', b''.join(before + after), None)
        yield Input('lines doubled', f'{name} with line {at + 1} twice', b''.join(before + [line, line] + after), None)
        if after:
            swapped = before + [after[0], line] + after[1:]
            yield Input('lines swapped', f'{name} with line {at + 1} after the next one', b''.join(swapped), None)


def other_bytes(byte):
    """Eight other bytes: NUL, LF, CR, a space, #, a digit, a capital and one above 127, or two for one of these."""
    letter = bytes([byte])
    capital = letter.upper() if letter.islower() else b'A'
    wanted = b'\x00\n\r #9' + capital + bytes([byte | 128]) + b'0\xff'
    return [other for other in dict.fromkeys(wanted) if other != byte][:8]


def changed_bytes(name, text):
    for at, byte in enumerate(text):
        before, after = text[:at], text[at + 1:]
        for other in other_bytes(byte):
            changed = before + bytes([other]) + after
            yield Input('bytes changed', f'{name} with byte {at} changed to {other:#04x}', changed, None)
        yield Input('bytes dropped', f'{name} without byte {at}', before + after, None)
        yield Input('bytes doubled', f'{name} with byte {at} twice', before + bytes([byte, byte]) + after, None)


def found_in_kept(pattern, text):
    """The places of a pattern in the lines that aren't skipped."""
    for found in re.finditer(pattern, text):
        start_of_line = text.rfind(b'\n', 0, found.start()) + 1
        if text[start_of_line:start_of_line + 1] != b'#':
            yield found


def changed_numbers(name, text):
    for found in found_in_kept(rb'[0-9]+', text):
        for value in VALUES:
            changed = text[:found.start()] + value + text[found.end():]
            number = found.group().decode()
            yield Input('numbers changed', f'{name} with {value[:25].decode()!r} for {number} at byte {found.start()}', changed, None)


def changed_words(name, text):
    for found in found_in_kept(rb'[^ \n]+', text):
        for word in WORDS:
            changed = text[:found.start()] + word + text[found.end():]
            yield Input('words changed', f'{name} with {word.decode()!r} for the word at byte {found.start()}', changed, None)


def long_bodies(text):
    """Bodies of 999 to 1,001 lines, and of 1,000 lines with as many that are skipped; `text` has the body of one line 7."""
    lines = lines_of(text)
    for name, body, known in [
            ('999 lines', lines[6] * 999, SCRIPT), ('1,000 lines', lines[6] * 1000, SCRIPT), ('1,001 lines', lines[6] * 1001, (1007, RANGE)),
            ('1,001 lines, the last one wrong too', lines[6] * 1000 + b'pool\n', (1007, RANGE)),
            ('1,001 lines, the last one no line', lines[6] * 1000 + b'pool 1\n', (1007, FORM)),
            ('1,000 lines and an open loop', lines[6] * 999 + b'loop 1\n', (1007, NEST)),
            ('1,000 lines and as many comments', (lines[6] + b'#\n') * 1000, SCRIPT),
            ('1,000 lines and as many empty ones', (b'\n' + lines[6]) * 1000, SCRIPT),
            ('2,000 comments', b'#\n' * 2000, SCRIPT)]:
        yield Input('limits', f'a body of {name}', b''.join(lines[:6]) + body + b''.join(lines[7:]), known)


def nested(text):
    """Loops that nest, and that do not; `text` has the body of one line 7, in a task, and its end in line 8."""
    lines = lines_of(text)
    for name, body, known in [
            ('four loops', b'loop 1\n' * 4 + b'pool\n' * 4, SCRIPT), ('five loops', b'loop 1\n' * 5 + b'pool\n' * 5, (11, NEST)),
            ('five loops, four at once', (b'loop 1\n' * 4 + b'pool\n') * 1 + b'loop 1\n' + b'pool\n' * 4, SCRIPT),
            ('a loop without its end', b'loop 1\n', (8, NEST)), ('an end without its loop', b'pool\n', (7, NEST)),
            ('an end too many', b'loop 1\npool\npool\n', (9, NEST)), ('a way out of no loop', b'until end\n', (7, NEST)),
            ('a way out behind a loop', b'loop 1\npool\nuntil empty\n', (9, NEST)),
            ('a fifth loop out of its range', b'loop 1\n' * 4 + b'loop 0\n', (11, RANGE)),
            ('a fifth loop without its number', b'loop 1\n' * 4 + b'loop\n', (11, FORM)),
            ('no lines', b'', SCRIPT)]:
        yield Input('loops', f'a body of {name}', b''.join(lines[:6]) + body + b''.join(lines[7:]), known)
    for opening in (b'cyc 1 1 0 off\n', b'cbr 1\n'):
        for name, body, known in [('ext_tsk', b'ext_tsk\n', (6, FORM)), ('a loop', b'loop 2\npool\n', SCRIPT), ('an open loop', b'loop 2\n', (7, NEST)),
                                  ('ext_tsk after comments', b'#\n\next_tsk\n', (8, FORM))]:
            yield Input('loops', f'{name} in the body of {opening.decode()[:3]}', b''.join(lines[:4]) + opening + body + b'end\n' + b''.join(lines[5:]), known)


def causes(text):
    """Texts whose first wrong line and cause are known: the first that is wrong, and of its causes the first."""
    lines = lines_of(text)
    for name, made, known in [
            ('nothing', b'', (1, MISSING)), ('a line without LF', b'itron 1', (1, MISSING)), ('a comment without LF', b'#', (1, MISSING)),
            ('a first line with a leading zero', b'itron 01\n', (1, FORM)), ('another version', b'itron 2\n', (1, FORM)),
            ('a link of 17 parts', lines[0] + b'link 1 9 8 0\n', (2, RANGE)), ('a link of 16 parts', lines[0] + b'link 1 9 7 1000\n', (3, MISSING)),
            ('a delay of 1,001', lines[0] + b'link 1 0 0 1001\n', (2, RANGE)), ('too many ticks', b''.join(lines[:2]) + b'ticks 400001\n', (3, RANGE)),
            ('the head alone', b''.join(lines[:4]), (5, MISSING)), ('a head with skipped lines', b'#\n\n'.join(lines[:4]), (11, MISSING)),
            ('a semaphore twice', b''.join(lines[:4]) + b'sem 1 fifo 0 1\n' * 2, (6, TWICE)),
            ('a semaphore twice, out of its range', b''.join(lines[:4]) + b'sem 1 fifo 0 1\nsem 1 fifo 2 1\n', (6, RANGE)),
            ('a semaphore twice, with a word more', b''.join(lines[:4]) + b'sem 1 fifo 0 1\nsem 1 fifo 0 1 1\n', (6, FORM)),
            ('the end of a loop without one', b''.join(lines[:4]) + b'task 1 1 act\npool\n', (6, NEST)),
            ('the end of a loop outside a body', b''.join(lines[:4]) + b'pool\n', (5, FORM)),
            ('both nodes at one address', b''.join(lines[:4]) + b'node 1 10.0.0.1 0 0\n', (5, RANGE))]:
        yield Input('causes', name, made, known)


def large(text):
    """Inputs of 1,048,576 bytes, and of one more."""
    room = LIMIT - len(text)
    for more in (0, 1):
        known = TOO_BIG if more else SCRIPT
        for name, padding in [('a comment', b'#' * (room - 1 + more) + b'\n'), ('empty lines', b'\n' * (room + more)),
                              ('a comment of bytes above 127', b'#' + b'\xff' * (room - 2 + more) + b'\n')]:
            yield Input('limits', f'{name} before a script, {LIMIT + more} bytes', padding + text, known)
            yield Input('limits', f'{name} after a script, {LIMIT + more} bytes', text + padding, known)
        yield Input('limits', f'{LIMIT + more} times # without LF', b'#' * (LIMIT + more), TOO_BIG if more else WRONG)
        yield Input('limits', f'{LIMIT + more} times NUL', b'\x00' * (LIMIT + more), TOO_BIG if more else WRONG)
        yield Input('limits', f'{LIMIT + more} times LF', b'\n' * (LIMIT + more), TOO_BIG if more else WRONG)
        yield Input('limits', f'a comment without LF after a script, {LIMIT + more} bytes', text + b'#' * (room + more),
                    TOO_BIG if more else WRONG)
    yield Input('limits', 'a megabyte of # without LF', b'#' * 1000000, WRONG)


def binary(text):
    """Bytes at random, the same ones in each run: alone, and in a comment before a script."""
    drawn = random.Random(1)
    every = bytes(range(256))
    yield Input('binary', 'each byte once', every, WRONG)
    yield Input('binary', 'each byte but LF in a comment', b'#' + every.replace(b'\n', b'') + b'\n' + text, SCRIPT)
    for number in range(100):
        noise = drawn.randbytes(drawn.randrange(1, 3000))
        yield Input('binary', f'{len(noise)} bytes at random, number {number}', noise, WRONG)
        yield Input('binary', f'a script after bytes at random, number {number}', b'x' + noise + b'\n' + text, WRONG)
        yield Input('binary', f'a comment at random, number {number}', b'#' + noise.replace(b'\n', b'') + b'\n' + text, SCRIPT)


def inputs():
    """All inputs, each once: of the same bytes the first one."""
    examples = ('examples/handoff.itron', 'examples/exchange.itron')
    scripts = [(path, pathlib.Path(path).read_bytes()) for path in examples] + [('the script of limits', LIMITS), ('the script of all lines', LANGUAGE)]
    found = {}
    for name, text in scripts:
        made = [Input('whole', name, text, SCRIPT)]
        for make in (prefixes, changed_lines, changed_bytes, changed_numbers, changed_words):
            made.extend(make(name, text))
        made.append(Input('CR LF', f'{name} with CR LF', text.replace(b'\n', b'\r\n'), WRONG))
        for each in made:
            found.setdefault(each.text, each)
    for make in (long_bodies, nested, causes, large, binary):
        for each in make(scripts[0][1]):
            found.setdefault(each.text, each)
    return list(found.values())


# The runs.

def difference(program, given):
    """What is wrong with the run on an input, or None."""
    wanted = verdict(given.text)
    if not agrees(given.known, wanted):
        return f'known to be {given.known}, and {wanted} for the reader of this test'
    try:
        ran = subprocess.run([program, 'sim'], input=given.text, capture_output=True, timeout=60)
    except subprocess.TimeoutExpired:
        return 'no end within 60 seconds'
    status, errors = refusal(wanted)
    if ran.returncode != status:
        return f'status {ran.returncode} in place of {status}, as it is {wanted}'
    if ran.stderr != errors:
        return f'on standard error {ran.stderr[:80]!r}'
    if wanted != SCRIPT:
        return f'on standard output {ran.stdout[:80]!r}' if ran.stdout else None
    if not ran.stdout.startswith(b''.join(line + b'\n' for line in kept(given.text)) + b'trace\n'):
        return 'the output does not begin with the printed form and the line trace'
    return None if ran.stdout.endswith(b'\nstop\n') else 'the output does not end with the line stop'


def main():
    program = sys.argv[1]
    given = inputs()
    with concurrent.futures.ThreadPoolExecutor(WORKERS) as pool:
        answers = list(pool.map(lambda each: difference(program, each), given))
    differing = [(each, answer) for each, answer in zip(given, answers) if answer is not None]
    for each, answer in differing[:SHOWN]:
        print(f'FAILED {each.name}: {answer}')
    good = {each.text for each in given if verdict(each.text) == SCRIPT}
    if 'kinds' in sys.argv[2:]:
        for kind in dict.fromkeys(each.kind for each in given):
            of_kind = [each for each in given if each.kind == kind]
            scripts = sum(each.text in good for each in of_kind)
            print(f'{kind}: {len(of_kind)} inputs, {scripts} scripts, {len(of_kind) - scripts} refused')
    failed = f', {len(differing)} differ' if differing else ''
    print(f'wrong scripts: {len(given)} inputs, {len(good)} scripts, {len(given) - len(good)} refused{failed}')
    return 1 if differing else 0


sys.exit(main())
