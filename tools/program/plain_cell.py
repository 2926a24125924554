"""A plain model of a cell for one client whose calls come one after another, so that each answer is determined. It knows of no server, message or lease."""

# The bytes that a range may have, and where it may end.
LONGEST_RANGE, LAST_PLACE = 67_108_864, 1 << 53
# The directory of deleted files.
TRASH = '/.gone'
# What stands at the name of a directory; at that of a file stands the file.
DIRECTORY = None


class Refused(Exception):
    """A call is refused, with the number and the name that are printed."""


def check(holds, refusal):
    if not holds:
        raise Refused(refusal)


def check_range(offset, count):
    check(count <= LONGEST_RANGE and offset + count <= LAST_PLACE, '11 TooLong')


def check_paths(*paths):
    """Those of these tests have short parts, of which none is `.` or `..`."""
    for path in paths:
        check(path.startswith('/') and (path == '/' or all(path[1:].split('/'))), '1 BadPath')


def parent(path):
    return path.rpartition('/')[0] or '/'


def is_in_trash(path):
    return path == TRASH or path.startswith(TRASH + '/')


class PlainFile:
    """A file as the bytes of its chunks."""

    def __init__(self, size):
        # The bytes that a chunk may hold.
        self.size = size
        self.chunks = []
        # The chunk of the last record. The next one is tried there first, where the client knows that chunk's place.
        self.appended = None
        # The chunks whose places the client was told since it last opened the file.
        self.told = set()

    def last_index(self):
        return max(0, len(self.chunks) - 1)

    def chunk_at(self, index):
        """The chunk of this index, which is made where it comes right behind the last one."""
        check(index <= len(self.chunks), '11 TooLong')
        if index == len(self.chunks):
            self.chunks.append(bytearray())
        return self.chunks[index]

    def write(self, offset, data):
        """Chunk by chunk. What stands between a chunk's end and the data is zeros."""
        index, start = divmod(offset, self.size)
        while data:
            chunk = self.chunk_at(index)
            part, data = data[:self.size - start], data[self.size - start:]
            chunk.extend(bytes(max(0, start - len(chunk))))
            chunk[start:start + len(part)] = part
            self.told.add(index)
            index, start = index + 1, 0

    def append(self, record):
        """The offset of a record: behind a chunk's bytes, or in the next chunk where it doesn't fit there, and the rest of that one is zeros."""
        check(len(record) <= self.size // 4, '11 TooLong')
        index = self.appended if self.appended in self.told else self.last_index()
        while True:
            chunk = self.chunk_at(index)
            start = len(chunk)
            if start < self.size and start + len(record) <= self.size:
                chunk.extend(record)
                self.appended = index
                self.told.add(index)
                return index * self.size + start
            chunk.extend(bytes(self.size - start))
            index = max(index + 1, self.last_index())

    def read(self, offset, count):
        """The bytes up to the first chunk that has fewer than are wanted, and how many chunks were looked at."""
        index, start = divmod(offset, self.size)
        found, looked = bytearray(), 0
        while count and index < len(self.chunks):
            wanted = min(count, self.size - start)
            part = self.chunks[index][start:start + wanted]
            found.extend(part)
            looked += 1
            self.told.add(index)
            if len(part) < wanted:
                break
            count -= wanted
            index, start = index + 1, 0
        return found, looked

    def length(self):
        """Where the last chunk's bytes end. The client is told that chunk's place."""
        if not self.chunks:
            return 0
        self.told.add(self.last_index())
        return self.last_index() * self.size + len(self.chunks[-1])


class PlainCell:
    """The names, and the client's descriptors. A call is a script's words from the call's name on, of which data are bytes, and is a method here."""

    def __init__(self, chunk, block):
        self.chunk, self.block = chunk, block
        self.names = {'/': DIRECTORY, TRASH: DIRECTORY}
        # The files of the descriptors from 1; none where one was closed.
        self.opened = []

    def answer(self, name, *arguments):
        """What is printed of a call's answer."""
        try:
            return getattr(self, name)(*arguments)
        except Refused as refused:
            return f'refused {refused}'

    def is_dir(self, path):
        return path in self.names and self.names[path] is DIRECTORY

    def children(self, directory):
        return sorted(path for path in self.names if path != '/' and parent(path) == directory)

    def check_new(self, path):
        check(not is_in_trash(path), '8 Reserved')
        self.check_free(path)

    def check_free(self, path):
        check(self.is_dir(parent(path)), '2 NoParent')
        check(path not in self.names, '3 Exists')

    def mkdir(self, path):
        check_paths(path)
        self.check_new(path)
        self.names[path] = DIRECTORY
        return 'done'

    def create(self, path, chunk=None, goal=1):
        check_paths(path)
        size = self.chunk if chunk is None else chunk
        check(64 <= size <= self.chunk and size % self.block == 0 and 1 <= goal <= 8, '22 BadSize')
        self.check_new(path)
        self.names[path] = PlainFile(size)
        return 'done'

    def rmdir(self, path):
        check_paths(path)
        check(path != '/' and not is_in_trash(path), '8 Reserved')
        check(path in self.names, '4 NotFound')
        check(self.is_dir(path), '6 NotDir')
        check(not self.children(path), '7 NotEmpty')
        del self.names[path]
        return 'done'

    def rename(self, path, to):
        check_paths(path, to)
        check(not is_in_trash(to), '8 Reserved')
        self.check_file(path)
        self.check_free(to)
        self.names[to] = self.names.pop(path)
        return 'done'

    def check_file(self, path):
        check(path in self.names, '4 NotFound')
        check(not self.is_dir(path), '5 NotFile')

    def list(self, path):
        check_paths(path)
        check(path in self.names, '4 NotFound')
        check(self.is_dir(path), '6 NotDir')
        names = [child.rpartition('/')[2] + '/' * self.is_dir(child) for child in self.children(path)]
        return ' '.join(['names', str(len(names)), *names])

    def open(self, path):
        """The next descriptor. The client forgets the places of the file's chunks."""
        check_paths(path)
        self.check_file(path)
        self.names[path].told.clear()
        self.opened.append(self.names[path])
        return f'fd {len(self.opened)}'

    def file_of(self, descriptor):
        is_open = 1 <= descriptor <= len(self.opened) and self.opened[descriptor - 1] is not None
        check(is_open, '12 BadFd')
        return self.opened[descriptor - 1]

    def close(self, descriptor):
        self.file_of(descriptor)
        self.opened[descriptor - 1] = None
        return 'done'

    def length(self, descriptor):
        return f'length {self.file_of(descriptor).length()}'

    def append(self, descriptor, record):
        return f'at {self.file_of(descriptor).append(record)}'

    def write(self, descriptor, offset, data):
        file = self.file_of(descriptor)
        check_range(offset, len(data))
        file.write(offset, data)
        return 'done'

    def read(self, descriptor, offset, count):
        """No version of a chunk but the first is granted, so each round is 1."""
        file = self.file_of(descriptor)
        check_range(offset, count)
        found, looked = file.read(offset, count)
        return f'bytes {len(found)} {found.hex() or "-"} rounds {",".join("1" * looked) or "-"}'
