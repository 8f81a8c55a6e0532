#!/usr/bin/env python3
"""Writes this program's cases: scripts into data/, their names into args, the listings that 01 asks for into stdout,
and into words what the lister says of each script on standard error.

The listings and the words come from a model of the loop that is written here from the rules alone.
"""
import os
import random
import re

HERE = os.path.dirname(os.path.abspath(__file__))
LISTEN, DATA, STATUS, DEVICE_ID, ACCESSORY, AUTO, UNADDRESS, SERVICE = (1 << k for k in range(8))
TALKS = DATA | STATUS | DEVICE_ID | ACCESSORY
with open(os.path.join(HERE, '..', '..', 'host', 'pil.h')) as header:
    MOST_DEVICES = int(re.search(r'PIL_MOST_DEVICES = (\d+)', header.read())[1])


class Device:
    """A device as a set-up item of the lister leaves it: status and accessory ID 0, no ID, no data."""

    def __init__(self, abilities, fixed):
        self.abilities, self.fixed, self.address = abilities, fixed, fixed
        self.configured = self.listener = self.talker = self.noted = self.last = 0

    def has(self, ability):
        return bool(self.abilities & ability)

    def stop(self):
        self.talker, self.noted, self.last = 1, 0, 0

    def reply(self, state, ability):
        """SDA, SST, SDI, SAI: the first byte of the reply, or None where the frame goes on."""
        if self.talker != 1 or not self.has(ability):
            return None
        if state in (2, 4):  # no data, no ID
            return 0x540
        self.talker, self.last = state, 0
        return 0x000

    def take(self, f):
        """The frame sent, and the byte handed with its end bit."""
        if f < 0x400:
            return self.take_data(f)
        if 0x420 <= f <= 0x43e:
            if self.has(LISTEN) and f - 0x420 == self.address:
                self.listener = 1
                if self.has(UNADDRESS):
                    self.quiet()
        elif f == 0x43f:
            self.listener = 0
        elif 0x440 <= f <= 0x45e:
            if self.has(TALKS) and f - 0x440 == self.address:
                self.quiet()
                self.talker = 1
                if self.has(UNADDRESS):
                    self.listener = 0
            elif f - 0x440 != self.address:
                self.quiet()
        elif f == 0x45f:
            self.quiet()
        elif f == 0x490:
            self.quiet()
            self.listener = 0
        elif f == 0x49a:
            if self.has(AUTO):
                self.configured, self.address = 0, self.fixed
        elif 0x560 <= f <= 0x563:
            state = f - 0x560 + 2
            sent = self.reply(state, (DATA, STATUS, DEVICE_ID, ACCESSORY)[state - 2])
            if sent is not None:
                return sent, None
        elif f == 0x542:
            if self.talker >= 2:
                self.noted = 1
        elif 0x580 <= f <= 0x59e:
            if self.has(AUTO) and not self.configured:
                self.configured, self.address = 1, f - 0x580
                return f + 1, None
        return f, None

    def quiet(self):
        self.talker = self.noted = self.last = 0

    def take_data(self, f):
        if self.talker >= 2:  # its own frame come back: one reply byte, so nothing is left
            damaged = f % 256 != self.last % 256 or f // 512 != self.last // 512
            self.stop()
            return (0x541 if damaged else 0x540), None
        if self.listener:
            return f, (f % 256, f // 512)
        return f, None


def allowed(abilities, fixed):
    if fixed > 31:
        return False
    if abilities & SERVICE and not abilities & STATUS:
        return False
    if abilities & UNADDRESS and not (abilities & LISTEN and abilities & TALKS):
        return False
    return True


def digits(text, n):
    return len(text) == n and all(c in b'0123456789abcdef' for c in text)


def set_up(line):
    """The devices of line 1, or None."""
    fields = line.split(b' ')
    if fields[0] != b'loop' or not all(digits(f, 4) for f in fields[1:]) or not 1 <= len(fields) - 1 <= MOST_DEVICES:
        return None
    pairs = [(int(f[:2], 16), int(f[2:], 16)) for f in fields[1:]]
    return [Device(*p) for p in pairs] if all(allowed(*p) for p in pairs) else None


def listing(script):
    if len(script) > 60000:
        return 'long\n'
    lines = script.split(b'\n')
    if lines[-1] == b'':
        lines.pop()
    devices = set_up(lines[0]) if lines else None
    if devices is None:
        return 'bad 1\n'
    out = []
    for number, line in enumerate(lines[1:], 2):
        if not digits(line, 3) or int(line, 16) > 0x7ff:
            out.append('bad %d\n' % number)
            break
        frame = int(line, 16)
        now = frame
        for i, device in enumerate(devices):
            now, handed = device.take(now)
            if handed:
                out.append('hand %d %02x %d\n' % (i, *handed))
        out.append('%03x %03x\n' % (frame, now))
    return ''.join(out)


def device_words(group):
    """The first thing that is wrong with a device's bytes, or ''."""
    if group[:1] != b' ' or not digits(group[1:], 4):
        return 'a space and four lower-case hexadecimal digits, abilities and fixed address'
    abilities, fixed = int(group[1:3], 16), int(group[3:], 16)
    if fixed > 31:
        return 'fixed address %02x is over 1f' % fixed
    if abilities & SERVICE and not abilities & STATUS:
        return 'abilities %02x need status' % abilities
    if not allowed(abilities, fixed):
        return 'abilities %02x need listen and one of data, status, device ID, accessory ID' % abilities
    return ''


def loop_words(line):
    """The first thing that is wrong with line 1, or ''."""
    if line[:4] != b'loop':
        return 'the word loop comes first, then a space and four digits for each device'
    groups = [line[at:at + 5] for at in range(4, len(line), 5)]
    for i, group in enumerate(groups):
        if fault := device_words(group):
            return 'device %d: %s' % (i, fault)
    if not groups:
        return 'no device: a loop has 1 to %d' % MOST_DEVICES
    if len(groups) > MOST_DEVICES:
        return '%d devices: a loop has 1 to %d' % (len(groups), MOST_DEVICES)
    return ''


def line_words(line, number):
    """What is wrong with a line, or ''."""
    for last, name in ((b'\r', 'carriage return'), (b' ', 'space'), (b'\t', 'tab')):
        if line.endswith(last):
            return '%s at the end of line %d\n' % (name, number)
    if number == 1:
        fault = loop_words(line)
    elif digits(line, 3) and int(line, 16) <= 0x7ff:
        fault = ''
    else:
        fault = 'a frame is three lower-case hexadecimal digits, at most 7ff'
    return fault and 'line %d: %s\n' % (number, fault)


def words(script):
    """What the lister says on standard error: the first thing that is wrong, or ''."""
    if len(script) > 60000:
        return 'the script is longer than 60000 bytes\n'
    if not script:
        return 'line 1: the script is empty\n'
    lines = script.split(b'\n')
    if lines[-1] == b'':
        lines.pop()
    return next(filter(None, (line_words(line, number) for number, line in enumerate(lines, 1))), '')


def frames(*numbers):
    return b''.join(b'%03x\n' % n for n in numbers)


def any_frames(seed, count):
    """Frames that meet the rules often: a few addresses, every command and ready frame, any data."""
    r = random.Random(seed)
    kinds = [
        lambda: r.randrange(0x400), lambda: r.randrange(0x400), lambda: r.choice((0, 0x100, 0x200, 0x300)),
        lambda: 0x420 + r.randrange(6), lambda: 0x440 + r.randrange(6), lambda: 0x580 + r.randrange(4),
        lambda: r.choice((0x43f, 0x45f, 0x490, 0x49a, 0x542, 0x542)), lambda: 0x560 + r.randrange(4),
        lambda: 0x560 + r.randrange(4), lambda: 0x600 + r.randrange(0x200), lambda: r.randrange(0x800),
    ]
    return frames(*(r.choice(kinds)() for _ in range(count)))


ONE = b'loop 211f\n'
LISTENERS = b'loop' + b''.join(b' 01%02x' % i for i in range(MOST_DEVICES)) + b'\n'
CASES = {
    'example': b'loop 211f 211f\n581\n422\n041\n',
    'no_input': b'',
    'only_newline': b'\n',
    'no_devices': b'loop\n',
    'one_too_many': b'loop' + b' 011f' * (MOST_DEVICES + 1) + b'\n',
    'most_devices': b'loop' + b' 011f' * MOST_DEVICES + b'\n600\n',
    'unaddress_alone': b'loop 401f\n',
    'service_without_status': b'loop 801f\n',
    'upper_case': b'loop 211F\n',
    'upper_word': b'Loop 211f\n',
    'space_behind': b'loop 211f \n',
    'two_spaces': b'loop  211f\n',
    'tab': b'loop\t211f\n',
    'no_space': b'loop211f\n',
    'three_digits': b'loop 211\n',
    'five_digits': b'loop 0211f\n',
    'fixed_20': b'loop 2120\n',
    'return_1': b'loop 211f\r\n600\r\n',
    'empty_line': ONE + b'600\n\n600\n',
    'two_newlines': ONE + b'600\n\n',
    'two_digits': ONE + b'60\n',
    'four_digits': ONE + b'600\n0600\n',
    'over_7ff': ONE + b'7ff\n800\n',
    'return_2': ONE + b'600\r\n',
    'upper_frame': ONE + b'60f\n60F\n',
    'space_before': ONE + b' 600\n',
    'no_digit': ONE + b'60g\n',
    'no_last_newline': ONE + b'581\n600',
    'no_last_newline_1': b'loop 211f',
    'line_1_alone': ONE,
    'bytes_60000': ONE + frames(*([0x7ff] * 10)) + b'0' * (60000 - 10 - 40),
    'bytes_60001': ONE + frames(*([0x7ff] * 10)) + b'0' * (60001 - 10 - 40),
    'listeners': LISTENERS + frames(*range(0x420, 0x420 + MOST_DEVICES), 0x041, 0x2ff, 0x141, 0x3ff),
    'ids_and_status': b'loop 1f05 2f1f\n' + frames(
        0x445, 0x563, 0x000, 0x560, 0x561, 0x542, 0x000, 0x562, 0x561, 0x0ff, 0x45f),
    'dab_come_back': b'loop 0405\n' + frames(
        0x445, 0x561, 0x000, 0x561, 0x100, 0x561, 0x200, 0x561, 0x300, 0x561, 0x001),
    'many_frames': b'loop ff1f 2101 5d02 3f1f 011f\n' + any_frames(1, 300),
    'two_too_many': b'loop' + b' 011f' * (MOST_DEVICES + 2) + b'\n',
    'upper_one_too_many': b'loop' + b' 011f' * MOST_DEVICES + b' 011F\n',
    'too_many_and_fixed_20': b'loop 0120' + b' 011f' * MOST_DEVICES + b'\n',
    'word_cut': b'loo',
    'wrong_behind_right': b'loop 211f 211g 2120\n',
    'rest_of_one': b'loop 211f 011f0\n',
    'rest_of_four': b'loop 211f 011f 01f\n',
    'rest_alone': b'loop 2\n',
    'item_before_form': b'loop 2120 211\n',
    'fixed_20_behind_right': b'loop 211f 011f 0120\n',
    'fixed_ff_last': b'loop' + b' 011f' * (MOST_DEVICES - 1) + b' 01ff\n',
    'fixed_before_abilities': b'loop 211f 8020\n',
    'status_before_listen': b'loop 211f c01f\n',
    'first_of_two': b'loop 211f 401f 0120\n',
    'service_and_all_but_status': b'loop fb1f\n',
    'unaddress_and_listen': b'loop 611f\n',
    'unaddress_and_data': b'loop 421f\n',
    'unaddress_and_accessory': b'loop 211f 701f\n',
    'unaddress_right': b'loop 431f 451f 491f 511f\n600\n',
    'service_right': b'loop 841f\n600\n',
    'return_alone': b'\r\n',
    'space_alone': b' \n600\n',
    'return_and_upper': b'LOOP\r\n',
    'space_and_return': b'loop 211f \r\n',
    'return_behind': ONE + frames(0x600, 0x601) + b'602\r\n',
    'space_behind_frame': ONE + frames(0x600) + b'601 \n',
    'space_line': ONE + b' \n',
    'return_line': ONE + b'600\n\r\n',
    'return_at_end': ONE + b'600\r',
    'tab_at_end': b'loop 211f\t\n',
    'tab_behind_frame': ONE + b'600\t\n',
    'line_10': ONE + frames(*range(0x600, 0x608)) + b'xyz\n',
    'line_100': ONE + frames(*range(0x600, 0x662)) + b'602\r\n',
}


def main():
    os.makedirs(os.path.join(HERE, 'data'), exist_ok=True)
    for name, script in CASES.items():
        with open(os.path.join(HERE, 'data', name), 'wb') as f:
            f.write(script)
    with open(os.path.join(HERE, 'args'), 'w') as f:
        f.write(''.join(name + '\n' for name in CASES))
    with open(os.path.join(HERE, 'stdout'), 'w') as f:
        f.write(''.join('-- %s\n%s' % (name, listing(script)) for name, script in CASES.items()))
    with open(os.path.join(HERE, 'words'), 'w') as f:
        f.write(''.join('-- %s\n%s' % (name, words(script)) for name, script in CASES.items()))


main()
