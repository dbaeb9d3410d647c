"""Writes dumps of real tapes: format codes 2 to 6, of all sectors or of the data alone.

    foreign.py DUMP < DESCRIPTION

A description has a line for each thing that the tape has. Numbers are decimal or, behind 0x, hexadecimal.

    code C                      the format code; 2 where it is not said
    segments N                  how many segments there are; 8 where it is not said
    headers S ..                the segments that have the header; 0 and 1 where it is not said, and none behind `headers none`
    data FIRST LAST             the first and the last data segment; that behind the last header, and the last of all
    tracks K, per-track P       28 and 3 where they are not said
    label TEXT, formatted DATE  `foreign tape` and 1970-01-01T00:00:00 where they are not said
    bad S I .., bad S           bad sectors of a segment, or all of it, in the map or the list of the header
    worn S I .., worn S         the same, in neither
    entry V                     an entry of the list of bad sectors, as it is written
    field PLACE BYTE ..         bytes of the header, over what is there else
    slot TEXT                   a slot of the volume table with this signature, and nothing else
    volume FIRST LAST SIZE NAME a slot `VTBL`; of code 6 LAST is how many segments it has. What its segments carry is, up to
                                SIZE, (k + 17 * V) mod 251 for byte k and V volumes before it, and zero behind
    date DATE, directory SIZE, flags V      the date, the size of the directory and byte 124 of the slot above
    form data                   the dump has the data sectors alone
    first S, dropped S ..       the dump begins with segment S; it lacks these

Bad and worn sectors hold 0xFF. Dates are YYYY-MM-DDTHH:MM:SS.
"""
import struct
import sys

SIGNATURE = b'\x55\xaa\x55\xaa'
AREA = 29 * 1024


def times(a, b):
    """The product of two bytes modulo x^8 + x^7 + x^2 + x + 1."""
    product = 0
    for bit in range(8):
        if b >> bit & 1:
            product ^= a << bit
    for bit in range(14, 7, -1):
        if product >> bit & 1:
            product ^= 0x187 << (bit - 8)
    return product


BY_C0 = bytes(times(0xC0, value) for value in range(256))


def xor(a, b):
    return (int.from_bytes(a, 'big') ^ int.from_bytes(b, 'big')).to_bytes(len(a), 'big')


def parity(data):
    """The three parity sectors of data sectors: what is left of a division by x^3 + 0xC0 x^2 + 0xC0 x + 1."""
    first = second = third = bytes(1024)
    for sector in data:
        top = xor(sector, first)
        by = top.translate(BY_C0)
        first, second, third = xor(second, by), xor(third, by), top
    return [first, second, third]


def date_word(text):
    day, time = text.split('T')
    year, month, day = (int(part) for part in day.split('-'))
    hour, minute, second = (int(part) for part in time.split(':'))
    return year - 1970 << 25 | second + 60 * (minute + 60 * (hour + 24 * (day - 1 + 31 * (month - 1))))


def padded(text):
    return text.encode().ljust(44)


def numbers(text):
    return [int(word, 0) for word in text.split()]


class Slot:
    """A slot of the volume table, and, of a volume, its segments and its size."""

    def __init__(self, signature):
        self.bytes = bytearray(signature.encode().ljust(128, b'\0'))
        self.first, self.last, self.size = 0, -1, 0


class Tape:
    def __init__(self, lines):
        self.code, self.count, self.headers, self.data = 2, 8, [0, 1], None
        self.tracks, self.per_track, self.label, self.formatted = 28, 3, 'foreign tape', '1970-01-01T00:00:00'
        self.form, self.begin, self.lacking = 'sectors', 0, []
        self.bad, self.worn, self.entries, self.fields, self.slots = {}, {}, [], [], []
        for line in lines:
            word, _, rest = line.strip().partition(' ')
            getattr(self, 'take_' + word.replace('-', '_'))(rest)
        if self.data is None:
            self.data = [max(self.headers, default=1) + 1, self.count - 1]

    # ---- the lines of the description

    def take_code(self, rest):
        self.code = int(rest)

    def take_segments(self, rest):
        self.count = int(rest)

    def take_headers(self, rest):
        self.headers = [] if rest == 'none' else numbers(rest)

    def take_data(self, rest):
        self.data = numbers(rest)

    def take_tracks(self, rest):
        self.tracks = int(rest)

    def take_per_track(self, rest):
        self.per_track = int(rest)

    def take_label(self, rest):
        self.label = rest

    def take_formatted(self, rest):
        self.formatted = rest

    def take_bad(self, rest):
        segment, *sectors = numbers(rest)
        self.bad.setdefault(segment, set()).update(sectors or range(32))

    def take_worn(self, rest):
        segment, *sectors = numbers(rest)
        self.worn.setdefault(segment, set()).update(sectors or range(32))

    def take_entry(self, rest):
        self.entries.append(int(rest, 0))

    def take_field(self, rest):
        place, *values = numbers(rest)
        self.fields.append((place, bytes(values)))

    def take_slot(self, rest):
        self.slots.append(Slot(rest))

    def take_volume(self, rest):
        first, last, size, name = rest.split(' ', 3)
        slot = Slot('VTBL')
        slot.first, slot.last, slot.size = int(first), int(last), int(size)
        if self.code == 6:
            struct.pack_into('<I', slot.bytes, 4, slot.last)
            slot.last += slot.first - 1
        else:
            struct.pack_into('<HH', slot.bytes, 4, slot.first, slot.last)
        slot.bytes[8:52] = padded(name)
        struct.pack_into('<Q', slot.bytes, 96, slot.size)
        self.slots.append(slot)

    def take_date(self, rest):
        struct.pack_into('<I', self.slots[-1].bytes, 52, date_word(rest))

    def take_directory(self, rest):
        struct.pack_into('<I', self.slots[-1].bytes, 92, int(rest))

    def take_flags(self, rest):
        self.slots[-1].bytes[124] = int(rest, 0)

    def take_form(self, rest):
        self.form = rest

    def take_first(self, rest):
        self.begin = int(rest)

    def take_dropped(self, rest):
        self.lacking += numbers(rest)

    # ---- the tape

    def header(self):
        """The data of the header."""
        area = bytearray(AREA)
        area[0:5] = SIGNATURE + bytes([self.code])
        if self.code == 6:
            struct.pack_into('<II', area, 242, *self.data)
        else:
            if len(self.headers) == 2:
                struct.pack_into('<HH', area, 6, *self.headers)
            struct.pack_into('<HH', area, 10, *self.data)
        struct.pack_into('<II', area, 14, date_word(self.formatted), date_word(self.formatted))
        struct.pack_into('<HB', area, 24, self.per_track, self.tracks)
        area[30:74] = padded(self.label)
        if self.code in (2, 5):
            for segment, sectors in self.bad.items():
                struct.pack_into('<I', area, 2048 + 4 * segment, sum(1 << index for index in sectors))
        else:
            place = 2048 if self.code == 3 else 256
            entries = b''.join(entry.to_bytes(3, 'little') for entry in self.bad_entries() + self.entries)
            area[place:place + len(entries)] = entries
        for place, values in self.fields:
            area[place:place + len(values)] = values
        return bytes(area)

    def bad_entries(self):
        """The list of bad sectors: those alone, and behind them the segments that are bad as a whole."""
        some = {segment: sectors for segment, sectors in sorted(self.bad.items()) if len(sectors) < 32}
        return ([32 * segment + index + 1 for segment in some for index in sorted(some[segment])]
                + [0x800000 | 32 * segment + 1 for segment in sorted(self.bad) if segment not in some])

    def usable(self, segment):
        unusable = self.bad.get(segment, set()) | self.worn.get(segment, set())
        return [index for index in range(32) if index not in unusable]

    def room(self, segment):
        """How many bytes a segment carries."""
        return 1024 * max(len(self.usable(segment)) - 3, 0)

    def areas(self):
        """The data of each segment."""
        areas = {segment: b'' for segment in range(self.count)}
        for segment in self.headers:
            areas[segment] = self.header()
        if self.data[0] < self.count:
            areas[self.data[0]] = b''.join(bytes(slot.bytes) for slot in self.slots)
        volumes = [slot for slot in self.slots if slot.bytes[:4] == b'VTBL']
        for number, volume in enumerate(volumes):
            left = bytes((k + 17 * number) % 251 for k in range(volume.size))
            for segment in range(volume.first, min(volume.last, self.count - 1) + 1):
                if volume.first > self.data[0]:
                    areas[segment], left = left[:self.room(segment)], left[self.room(segment):]
        return {segment: area[:self.room(segment)].ljust(self.room(segment), b'\0') for segment, area in areas.items()}

    def pieces(self):
        """What the dump has of each segment."""
        for segment, area in sorted(self.areas().items()):
            data = [area[at:at + 1024] for at in range(0, len(area), 1024)]
            if segment < self.begin or segment in self.lacking:
                continue
            if self.form == 'data':
                yield area
                continue
            sectors = [b'\xff' * 1024] * 32
            for index, sector in zip(self.usable(segment), data + parity(data)):
                sectors[index] = sector
            yield b''.join(sectors)


if __name__ == '__main__':
    tape = Tape(sys.stdin)
    with open(sys.argv[1], 'wb') as dump:
        for piece in tape.pieces():
            dump.write(piece)
