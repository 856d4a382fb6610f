"""The files that scripts/effects writes: those that hold nothing else, and parts of documents between two marks."""
import os
import re
import textwrap

import sounds

# As many characters of a line of code as `rt fmt` leaves together.
WIDTH_OF_CODE = 100
# The first line of a file that holds nothing else, in the comments of its language.
NOTICE = 'Written by scripts/effects from effects/*.toml. Do not edit.'
COMMENTS = {'.rt': '//', '.antt': '--'}
TEMPLATES = os.path.join(sounds.TOP, 'effects', 'templates')


def text_of(path):
    """The text of a file, or none where there is no file yet."""
    if not os.path.exists(path):
        return ''
    with open(path, encoding='utf-8') as file:
        return file.read()


class WrittenFile:
    """A file that is written, whole or in part: its text before, and the new one."""

    def __init__(self, path):
        self.path = path
        self.before = text_of(os.path.join(sounds.TOP, path))
        self.text = self.before

    def is_changed(self):
        return self.text != self.before

    def write(self):
        path = os.path.join(sounds.TOP, self.path)
        os.makedirs(os.path.dirname(path), exist_ok=True)
        with open(path, 'w', encoding='utf-8') as file:
            file.write(self.text)


class Document(WrittenFile):
    """A document in which the text between two comments is written."""

    def part(self, begin, end, text):
        """Puts a text in place of what stands between the one `begin` and the next `end`."""
        if self.text.count(begin) != 1 or end not in self.text.partition(begin)[2]:
            raise ValueError(f'{self.path}: not once {begin} and then {end}')
        front, _, rest = self.text.partition(begin)
        self.text = front + begin + text + rest[rest.index(end):]


class GeneratedFile(WrittenFile):
    """A file that is written whole, from a template in which `@@NAME@@` stands for what comes of the effects."""

    def __init__(self, path, template):
        super().__init__(path)
        self.text = f'{COMMENTS[os.path.splitext(path)[1]]} {NOTICE}\n' + text_of(os.path.join(TEMPLATES, template))

    def lines(self, name, lines):
        """Puts these lines in place of the line that is this mark, as far in as that stands."""
        found = re.search(rf'^( *)@@{name}@@\n', self.text, re.MULTILINE)
        if not found:
            raise ValueError(f'{self.path}: its template has no line @@{name}@@')
        text = ''.join(f'{found.group(1)}{line}'.rstrip() + '\n' for part in lines for line in part.split('\n'))
        self.text = self.text[:found.start()] + text + self.text[found.end():]

    def word(self, name, text):
        """Puts a text in place of each mark of this name."""
        if f'@@{name}@@' not in self.text:
            raise ValueError(f'{self.path}: its template has no @@{name}@@')
        self.text = self.text.replace(f'@@{name}@@', text)

    def use(self, module, names):
        """Has a `use` of definitions name these too. A new one comes after the last one of its crate, or after all."""
        found = re.search(rf'^use Rattle\.{re.escape(module)}\.\{{(.*)\}}$', self.text, re.MULTILINE)
        if found:
            here = found.group(1).split(', ')
            here += [name for name in names if name not in here]
            self.text = self.text[:found.start(1)] + ', '.join(here) + self.text[found.end(1):]
            return
        crate = module.split('.')[0]
        behind = list(re.finditer(rf'^use Rattle\.{crate}\..*\n', self.text, re.MULTILINE))
        at = (behind or list(re.finditer(r'^use .*\n', self.text, re.MULTILINE)))[-1].end()
        self.text = f'{self.text[:at]}use Rattle.{module}.{{{", ".join(names)}}}\n{self.text[at:]}'

    def use_code(self, path, names, start='use '):
        """The same of a `use` of code, whose names stand by the alphabet. A new one comes before the first that follows it, and
        begins as the others there, or with `start`."""
        found = re.search(rf'^((?:pub )?use ){re.escape(path)}::(?:\{{([^}}]*)\}}|(\w+));$', self.text, re.MULTILINE)
        here = set(names) | (set(re.findall(r'\w+', found.group(2) or found.group(3))) if found else set())
        # Names of types stand in front of names of functions.
        listed = sorted(here, key=lambda name: (name[0].islower(), name))
        uses = list(re.finditer(r'^((?:pub )?use )[^{].*?;\n', self.text, re.MULTILINE | re.DOTALL))
        word = found.group(1) if found else uses[0].group(1) if uses else start
        line = word + (f'{path}::{listed[0]};' if len(listed) == 1 else f'{path}::{{{", ".join(listed)}}};')
        if len(line) > WIDTH_OF_CODE:
            names_in_lines = textwrap.fill(', '.join(listed) + ',', WIDTH_OF_CODE, initial_indent='    ', subsequent_indent='    ')
            line = f'{word}{path}::{{\n{names_in_lines}\n}};'
        # (with more names it may stand elsewhere)
        text = self.text[:found.start()] + self.text[found.end() + 1:] if found else self.text
        uses = list(re.finditer(r'^((?:pub )?use )[^{].*?;\n', text, re.MULTILINE | re.DOTALL))
        behind = [use for use in uses if use.group() > line]
        # The first one of all comes after the comment that describes the file.
        first = found.start() if found else text.index('\n\n') + 2
        at = behind[0].start() if behind else uses[-1].end() if uses else first
        self.text = f'{text[:at]}{line}\n{"" if uses or found else chr(10)}{text[at:]}'
