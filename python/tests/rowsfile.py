"""rowsfile.py: files of rows, read line by line as crates/rows/src/main.rt says what each line means."""
import copy
import os

DATA = "/work/h5/crates/rows/data"


def numbered(lines, mark, count):
    return b''.join(lines.replace(mark, b'%d' % n) for n in range(count))


def base(name, folder):
    with open(os.path.join(folder, name), 'rb') as file:
        return file.read()


class Case:
    def __init__(self):
        self.name, self.line = '', 0
        self.commands, self.own_words = [], False
        self.files, self.limits = {}, {}
        self.status, self.text, self.whole, self.wants_at = None, b'', True, None
        self.unsure = False
        self.fresh()

    def begun(self, name, line):
        case = copy.copy(self)
        case.name, case.line, case.own_words = name, line, False
        case.commands, case.files, case.limits = list(self.commands), dict(self.files), dict(self.limits)
        case.wants_at = None
        case.fresh()
        return case

    def fresh(self):
        self.old, self.new, self.times = b'', b'', None

    def end_hunk(self):
        if self.old or self.new or self.times:
            assert self.times is None, (self.name, 'times without once')
            name = list(self.files)[-1]
            content = self.files[name]
            if not self.old:
                content += self.new
            else:
                places = [i for i in range(len(content)) if content.startswith(self.old, i) and (i == 0 or content[i - 1] == 10)] \
                    if len(content) < 100000 else None
                assert places is None or len(places) == 1, (self.name, self.old, places)
                if places is None:
                    at = content.find(self.old)
                    places = [at]
                content = content[:places[0]] + self.new + content[places[0] + len(self.old):]
            self.files[name] = content
        self.fresh()

    def add(self, line):
        if self.times:
            self.times[1] += line
        else:
            self.new += line

    def read(self, line, number, last, folder):
        first, rest = line[:1], line[1:] + b'\n'
        if first == b'':
            self.end_hunk()
        elif first == b'#':
            pass
        elif first == b' ':
            self.old += rest
            self.add(rest)
        elif first == b'-':
            self.old += rest
        elif first == b'+':
            self.add(rest)
        elif first == b'|':
            self.text += rest
        elif first == b'\\':
            if self.old or self.new or self.times:
                if self.times:
                    self.times[1] = self.times[1][:-1]
                else:
                    self.new = self.new[:-1]
            else:
                self.text = self.text[:-1]
        else:
            word, _, rest = line.partition(b' ')
            self.words(word.decode(), rest, number, last, folder)

    def words(self, word, rest, number, last, folder):
        if word == 'times':
            self.times = [int(rest), b'']
        elif word == 'once':
            (count, lines), self.times = self.times, None
            self.new += numbered(lines, b'#', count)
        elif word == 'last':
            if last is None:
                self.unsure = True
            self.new += last or b''
        elif word == 'again':
            if self.old or self.new:
                self.new = numbered(self.new, b'@', int(rest))
            else:
                self.text = numbered(self.text, b'@', int(rest))
        else:
            self.end_hunk()
            text = rest.decode()
            if word == 'words':
                if not self.own_words:
                    self.commands, self.own_words = [], True
                self.commands.append(text)
            elif word == 'more':
                self.commands = [c + ' ' + text for c in self.commands]
            elif word == 'fewer':
                self.commands = [c.rsplit(' ', 1)[0] for c in self.commands]
            elif word == 'file':
                name, _, source = text.partition(' ')
                self.files.pop(name, None)
                self.files[name] = base(source, folder) if source else b''
            elif word == 'without':
                self.files.pop(text, None)
            elif word in ('wants', 'begins'):
                status, _, line = rest.partition(b' ')
                self.status, self.whole, self.wants_at = int(status), word == 'wants', number
                self.text = line + b'\n' if line else b''
            elif word in ('fetch', 'write', 'room', 'step'):
                self.limits[word] = int(text)
            else:
                raise ValueError((self.name, word))


def cases(path, folder=DATA):
    """(lines of the file, its cases). Lines are numbered from 0; a case lies between its `line` and its `end`."""
    with open(path, 'rb') as file:
        lines = file.read().split(b'\n')
    every, case, found, last = Case(), None, [], None
    for number, line in enumerate(lines):
        if line.startswith(b'case '):
            if case:
                case.end_hunk()
                case.end = number
                found.append(case)
                last = case.text if case.whole else None
            else:
                every.end_hunk()
            case = every.begun(line[5:].decode(), number)
        else:
            (case or every).read(line, number, last, folder)
    if case:
        case.end_hunk()
        case.end = len(lines)
        found.append(case)
    return lines, found


def count(path, folder=DATA):
    """How many commands of a file of rows are run."""
    return sum(len(case.commands) for case in cases(path, folder)[1])
