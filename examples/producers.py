#!/usr/bin/env python3
"""A client of `gfscell serve` in another language: four producers append records to one file, and a reader follows it by the recipe of docs/TRUST.md.

    examples/producers.py [--records N] [--restarts] [--program PROGRAM] [options of serve but --clients, --chunk and --block]

The program is ./gfscell of this repository, or PROGRAM. Each producer appends N records (100). With --restarts the master and the servers begin again in turn meanwhile. At the end it prints how many records were answered, how many of them the reader
has, and how many it took twice or from appends that failed. The exit status is 0 where all producers and the reader came to their end, the program ended with 0, and the
reader has each record that was answered, at the offset that was answered."""
import collections
import os
import queue
import struct
import subprocess
import sys
import threading
import zlib

TOP = os.path.dirname(os.path.dirname(os.path.abspath(__file__)))
PRODUCERS = 4
CHUNK = 65536
NODES = ('master', 's1', 's2', 's3')
FILE = '/log'
MARK = b'\xf5REC'
# behind the mark: the length of the text, the producer and its number, and the checksum of these and the text
HEAD = struct.Struct('>IIQI')
# nobody could serve, or no answer came in time: the record may stand in the file or not
UNCERTAIN = ('15', '16', '17')

Answer = collections.namedtuple('Answer', 'kind words')


class Refused(Exception):
    """A call was refused, by this number."""


class Cell:
    """A served cell. Each client's answers come in the order of its calls."""

    def __init__(self, program, options, clients):
        words = [program, 'serve', '--clients', str(clients), *options]
        self.process = subprocess.Popen(words, stdin=subprocess.PIPE, stdout=subprocess.PIPE)
        self.lock = threading.Lock()
        self.answers = {f'c{number}': queue.SimpleQueue() for number in range(1, clients + 1)}
        self.listener = threading.Thread(target=self.listen, daemon=True)
        self.listener.start()

    def listen(self):
        """Hands each answer to its client. Behind the last one no client waits any more."""
        for line in self.process.stdout:
            client, *words = line.decode().rstrip('\n').split(' ')
            if client in self.answers:
                self.answers[client].put(Answer(words[0], words[1:]))
        for answers in self.answers.values():
            answers.put(None)

    def send(self, line):
        with self.lock:
            self.process.stdin.write(line.encode() + b'\n')
            self.process.stdin.flush()

    def close(self):
        """Ends the input, and waits for the end; the exit status."""
        with self.lock:
            self.process.stdin.close()
        self.listener.join()
        return self.process.wait()


class Client:
    """A client, which makes one call after another."""

    def __init__(self, cell, number):
        self.cell = cell
        self.name = f'c{number}'

    def call(self, text):
        self.cell.send(f'{self.name} {text}')
        answer = self.cell.answers[self.name].get()
        if answer is None:
            raise EOFError('the cell ended')
        if answer.kind == 'refused':
            raise Refused(answer.words[0])
        return answer.words

    def create(self, path):
        self.call(f'create {path}')

    def open(self, path):
        return int(self.call(f'open {path}')[0])

    def close(self, descriptor):
        self.call(f'close {descriptor}')

    def length(self, descriptor):
        return int(self.call(f'length {descriptor}')[0])

    def append(self, descriptor, record):
        return int(self.call(f'append {descriptor} 0x{record.hex()}')[0])

    def read(self, descriptor, offset, count):
        """The bytes, and the rounds of the chunks that were looked at."""
        _, digits, _, rounds = self.call(f'read {descriptor} {offset} {count}')
        return b'' if digits == '-' else bytes.fromhex(digits), [] if rounds == '-' else [int(it) for it in rounds.split(',')]


# ---- records

def record_of(producer, number, text):
    checksum = zlib.crc32(struct.pack('>IIQ', len(text), producer, number) + text)
    return MARK + HEAD.pack(len(text), producer, number, checksum) + text


def record_at(data, place):
    """The id and the end of the record that begins there, or None: padding, a hole or a piece of a record has no mark or another checksum."""
    text = place + len(MARK) + HEAD.size
    if not data.startswith(MARK, place) or text > len(data):
        return None
    length, producer, number, checksum = HEAD.unpack_from(data, place + len(MARK))
    end = text + length
    if end > len(data) or zlib.crc32(struct.pack('>IIQ', length, producer, number) + data[text:end]) != checksum:
        return None
    return (producer, number), end


def records_in(data):
    """Each record's id, its place and the one behind it."""
    place = 0
    while (place := data.find(MARK, place)) >= 0:
        found = record_at(data, place)
        if found:
            yield found[0], place, found[1]
        place = found[1] if found else place + 1


# ---- a producer

class Producer(threading.Thread):
    """Appends its records. One that nobody could serve it appends again, with the same id."""

    def __init__(self, cell, number, records):
        super().__init__()
        self.client, self.number, self.records = Client(cell, number), number, records
        self.answered, self.tried_again, self.fault = {}, 0, None

    def run(self):
        try:
            descriptor = self.client.open(FILE)
            for number in range(self.records):
                self.append(descriptor, number)
        except (Refused, EOFError) as fault:
            self.fault = fault

    def append(self, descriptor, number):
        record = record_of(self.number, number, os.urandom(number * 37 % 1000))
        while True:
            try:
                self.answered[self.number, number] = self.client.append(descriptor, record)
                return
            except Refused as refusal:
                if str(refusal) not in UNCERTAIN:
                    raise
                self.tried_again += 1


# ---- the reader

class Reader:
    """Keeps the records that it took, by id and offset, and for each chunk the round that its last read named and the place behind what it took there."""

    def __init__(self, client, path):
        self.client, self.path = client, path
        self.taken, self.chunks = {}, []
        self.fault = None

    def look(self, is_whole):
        """Opens the file again and asks for its length, and reads on in each chunk below it; each chunk from its beginning, where it is to miss nothing."""
        descriptor = self.client.open(self.path)
        try:
            length = self.client.length(descriptor)
            for index in range((length + CHUNK - 1) // CHUNK):
                if index == len(self.chunks):
                    self.chunks.append((0, 0))
                self.read_chunk(descriptor, index, is_whole)
        finally:
            self.client.close(descriptor)

    def read_chunk(self, descriptor, index, is_whole):
        last_round, place = self.chunks[index]
        begin = 0 if is_whole else min(place, CHUNK - 1)
        data, rounds = self.client.read(descriptor, index * CHUNK + begin, CHUNK - begin)
        if rounds and rounds[0] > last_round and begin > 0:
            # what was taken may have been unsettled, and what came since may lie before its place
            begin = 0
            data, rounds = self.client.read(descriptor, index * CHUNK, CHUNK)
        behind = place if begin else 0
        for name, at, end in records_in(data):
            self.taken[name, index * CHUNK + begin + at] = data[at:end]
            behind = begin + end
        self.chunks[index] = (rounds[0] if rounds else last_round, behind)


def look_until_served(reader, is_whole):
    """Tries again where nobody could serve."""
    while True:
        try:
            return reader.look(is_whole)
        except Refused as refusal:
            if str(refusal) not in UNCERTAIN:
                raise


def slots_for(records):
    """Room at each server for the chunks of all records, each twice, and for 32 more. In a full cell an append is refused 16 for ever."""
    return min(65536, 32 + 2 * PRODUCERS * records * 1024 // CHUNK)


def run(program, options, records, restarts):
    slots = [] if '--slots' in options else ['--slots', str(slots_for(records))]
    cell = Cell(program, ['--chunk', str(CHUNK), '--block', '1024', *slots, *options], PRODUCERS + 1)
    reader = Reader(Client(cell, PRODUCERS + 1), FILE)
    reader.client.create(FILE)
    producers = [Producer(cell, number, records) for number in range(1, PRODUCERS + 1)]
    for producer in producers:
        producer.start()
    looks, followed = 0, set()
    try:
        while any(producer.is_alive() for producer in producers):
            if restarts:
                cell.send(f'restart {NODES[looks % len(NODES)]}')
            look_until_served(reader, is_whole=False)
            looks += 1
        followed = ids_of(reader)
        look_until_served(reader, is_whole=True)
    except (Refused, EOFError) as fault:
        reader.fault = fault
    for producer in producers:
        producer.join()
    status = cell.close()
    answered = {name: offset for producer in producers for name, offset in producer.answered.items()}
    return status, answered, followed, looks, reader, producers


def ids_of(reader):
    return {name for name, _ in reader.taken}


def option(words, name, default):
    """The value of an option, which is taken out of the words."""
    if name not in words:
        return default
    place = words.index(name)
    value = words[place + 1]
    del words[place:place + 2]
    return value


def main(words):
    records = int(option(words, '--records', '100'))
    program = option(words, '--program', os.path.join(TOP, 'gfscell'))
    restarts = '--restarts' in words
    options = [word for word in words if word != '--restarts']
    status, answered, followed, looks, reader, producers = run(program, options, records, restarts)
    for producer in producers:
        if producer.fault is not None:
            print(f'producer {producer.number}: {type(producer.fault).__name__} {producer.fault}')
    if reader.fault is not None:
        print(f'reader: {type(reader.fault).__name__} {reader.fault}')
    has, missed = ids_of(reader), sorted(set(answered.items()) - set(reader.taken))
    print(f'{len(answered)} records answered at {len(set(answered.values()))} offsets, {sum(producer.tried_again for producer in producers)} appends tried again')
    print(f'the reader has {len(answered) - len(missed)} of them where they were answered, {len(followed)} of all while it followed, in {looks} looks; '
          f'{len(reader.taken) - len(has)} stood twice, and {len(has - set(answered))} are of appends that failed')
    return 1 if status or missed or reader.fault or any(producer.fault for producer in producers) else 0


if __name__ == '__main__':
    sys.exit(main(sys.argv[1:]))
