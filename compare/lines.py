#!/usr/bin/env python3
"""lines.py SEED COUNT: prints a script of calls on packet lines, for a comparison of answers.

First come the chosen cases: prefixes in both cases of their letters, prefixes damaged at one place, lengths at the
limits, and texts that almost begin `ERR `. COUNT random calls follow, which the seed fixes. Every BYTES is `-` or one
`h` term."""
import random
import sys

MARKERS = ['flush', 'delim', 'end']
LENGTHS = [0, 1, 65_515, 65_516, 65_517, 65_520]
BOUNDARIES = [*range(21), 0x00ff, 0x0100, 0x0fff, 0x1000, 0x7fff, 0x8000, *range(65_510, 65_536)]
DAMAGED = [b'0005', b'fFf0', b'0001']
PAYLOADS = [
    b'', b'\x00', b'\n', b'a', b'a\n', b'a\n\n', b'\n\n', b'\na', b'a\r\n', b'foobar\n', b'a\x00\n',
    b'E', b'ER', b'ERR', b'ERR ', b'ERR\n', b'ERRx', b'ERR\t', b'err ', b'Err a', b' ERR a', b'ERR a', b'ERR  a\n', b'ERR ERR a',
    b'\x01', b'\x02', b'\x03', b'\x00a', b'\x01a', b'\x02a\n', b'\x03ERR a', b'\x04a', b'1a', b'\xff', b'\xffa',
    bytes(range(64)), bytes(range(65)), bytes(range(256)), b'a' * 63 + b'\n', b'a' * 64 + b'\n', b'\x02' + b'b' * 64]
EXAMPLES = [b'0006a\n', b'0005a', b'000bfoobar\n', b'0004']


def term(data):
    """The word for these bytes."""
    return 'h' + data.hex() if data else '-'


def counted(size):
    """So many bytes, none of which stands beside an equal one."""
    return bytes(i % 251 for i in range(size))


def prefixes(value):
    """The four digits of a value in lower, upper and both mixed cases."""
    low = b'%04x' % value
    mixed = bytes(low.upper()[i] if i % 2 else low[i] for i in range(4))
    return sorted({low, low.upper(), mixed, mixed.swapcase()})


def chosen_prefixes():
    print('case prefixes')
    for value in BOUNDARIES:
        for prefix in prefixes(value):
            print('hex_prefix', term(prefix))
            print('streaming', term(prefix))
            print('all_at_once', term(prefix + b'abcdefghijklmnop'))
    print('case digits')
    for value in [*BOUNDARIES, *range(0, 65_536, 251)]:
        print('u16_to_hex', value)


def chosen_damage():
    print('case damage')
    for prefix in DAMAGED:
        for place in range(4):
            for byte in range(256):
                damaged = prefix[:place] + bytes([byte]) + prefix[place + 1:]
                print('hex_prefix', term(damaged))
                print('streaming', term(damaged + b'a'))
    print('case other-lengths')
    for size in (0, 1, 2, 3, 5, 6, 8):
        for digits in (b'00000000', b'0005abcd', b'zzzzzzzz'):
            print('hex_prefix', term(digits[:size]))
            print('streaming', term(digits[:size]))
            print('all_at_once', term(digits[:size]))


def chosen_lengths():
    print('case limits')
    for size in LENGTHS:
        print('to_data_line', term(counted(size)))
    for line in (b'ffef' + counted(65_515), b'fff0' + counted(65_516), b'FFF0' + counted(65_515), b'fff1' + counted(8)):
        print('streaming', term(line))
    print('all_at_once', term(b'fff0' + counted(65_517)))
    print('all_at_once', term(b'fff0' + counted(65_515)))
    for size in (1, 2, 59, 60, 61, 64, 65, 66):
        line = b'%04x' % (size + 4) + counted(size)
        for end in range(len(line) + 3):
            print('streaming', term((line + b'00')[:end]))
            print('all_at_once', term((line + b'00')[:end]))


def calls_of_line(line):
    """Every call on one line."""
    for call in ('decode_band', 'check_error', 'as_text', 'as_error'):
        print(call, line)
    for band in (1, 2, 3):
        print('as_band', line, band)


def chosen_lines():
    print('case examples')
    for example in EXAMPLES:
        print('streaming', term(example))
        print('all_at_once', term(example))
    print('case lines')
    lines = MARKERS + [term(payload) for payload in PAYLOADS]
    for line in lines:
        calls_of_line(line)
    for byte in range(256):
        print('decode_band', term(bytes([byte])))
        print('decode_band', term(bytes([byte]) + b'x'))
    print('case same')
    for a in lines:
        for b in lines[:12]:
            print('line_eq', a, b)
        print('line_eq', a, a)


def random_bytes(rng, most):
    """Up to so many bytes, of one of several kinds."""
    size = rng.randrange(most + 1)
    kind = rng.randrange(4)
    if kind == 0:
        return bytes(rng.choice(b'0123456789abcdefABCDEFg') for _ in range(size))
    if kind == 1:
        return rng.choice([b'ERR ', b'ERR', b'\x01', b'\x02', b'\x03', b'err ']) + rng.randbytes(size)
    if kind == 2:
        return rng.randbytes(size) + b'\n' * rng.randrange(3)
    return rng.randbytes(size)


def random_packet(rng):
    """A packet line with anything behind it, cut short, or with a wrong prefix."""
    payload = random_bytes(rng, 80)
    value = len(payload) + 4 + rng.choice([0, 0, 0, 0, -1, 1, 5])
    prefix = rng.choice(prefixes(rng.choice([value, value, value, rng.randrange(65_536), rng.randrange(6)])))
    packet = prefix + payload + random_bytes(rng, 6)
    if rng.random() < 0.2:
        packet = packet[:rng.randrange(len(packet) + 1)]
    if rng.random() < 0.1 and packet:
        place = rng.randrange(min(len(packet), 4))
        packet = packet[:place] + rng.randbytes(1) + packet[place + 1:]
    return packet


def random_line(rng):
    """A marker, or a payload."""
    if rng.random() < 0.1:
        return rng.choice(MARKERS)
    return term(random_bytes(rng, 90))


def random_call(rng):
    call = rng.choice(['hex_prefix', 'streaming', 'streaming', 'all_at_once', 'all_at_once', 'to_data_line', 'decode_band',
                       'check_error', 'as_text', 'as_error', 'as_band', 'line_eq', 'u16_to_hex'])
    if call == 'hex_prefix':
        return f'{call} {term(random_packet(rng)[:4])}'
    if call in ('streaming', 'all_at_once'):
        return f'{call} {term(random_packet(rng))}'
    if call == 'to_data_line':
        return f'{call} {term(random_bytes(rng, 90))}'
    if call == 'u16_to_hex':
        return f'{call} {rng.randrange(65_536)}'
    if call == 'as_band':
        return f'{call} {random_line(rng)} {rng.randrange(1, 4)}'
    if call == 'line_eq':
        line = random_line(rng)
        return f'{call} {line} {rng.choice([line, random_line(rng)])}'
    return f'{call} {random_line(rng)}'


def main():
    seed, count = int(sys.argv[1]), int(sys.argv[2])
    print('# Calls on packet lines: chosen ones, then', count, 'random ones of seed', seed)
    chosen_prefixes()
    chosen_damage()
    chosen_lengths()
    chosen_lines()
    print()
    print('case', f'seed-{seed}')
    rng = random.Random(seed)
    for _ in range(count):
        print(random_call(rng))


main()
