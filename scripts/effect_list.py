"""The effects as effects/ has them: a list of their names, in the order in which programs, rules and documents list them, and of
each an entry, what the files that are written say of it."""
import os
import sys
import tomllib

import sounds

FOLDER = os.path.join(sounds.TOP, 'effects')
# Of each table of an entry the keys that it needs, those that only an effect with words has, which has all of them, and others.
KEYS = {
    'effect': ('doc copy', 'type argument', 'line max_frames frames_after frames_use layout_after channels_after uses'),
    'act': ('determined length uses', 'type value of', 'layout_after channels_after fits is_usable fits_layout recipe rises rises_use made length_use answer answer_use limits_use'),
    'words': ('reader read faults uses', 'says equal', 'equal_use refuses_name'),
    'stage': ('takes_memory placed sound stored uses', '', 'made form by_samples keeps'),
    'help': ('help_line usage limits instead manual', '', 'title picture'),
    'tests': ('fed', '', ''),
}
# The values that a key may have, where these are few.
VALUES = {'stage.takes_memory': (True, False), 'stage.stored': ('line', 'pending'), 'stage.form': ('Mapped', 'Selected', 'Tapped'), 'stage.by_samples': (True,), 'words.refuses_name': (True,)}


def effect_names():
    """The names in effects/list; a line that begins with # is a comment."""
    with open(os.path.join(FOLDER, 'list'), encoding='utf-8') as file:
        lines = [line.strip() for line in file]
    return [line for line in lines if line and not line.startswith('#')]


def left_out() -> list[list[str]]:
    """The names of the effects of SoX that are left out, as effects/sox.toml has them: the filters, and the others."""
    with open(os.path.join(FOLDER, 'sox.toml'), 'rb') as file:
        of_sox = tomllib.load(file)
    known = set(effect_names())
    return [[name for name in of_sox[names] if name not in known] for names in ('filters', 'others')]


def fault_of(name, tables):
    """What is wrong of an entry, or None: a key that is misspelt or wanting would else be an effect that has it not."""
    has_words = 'type' in tables.get('effect', {})
    known = {'name', 'variant', 'crate', *KEYS}
    if tables.keys() != known:
        return 'on top stands ' + ' or '.join(sorted(tables.keys() ^ known)) + ', which is wrong or wanting'
    if tables['name'] != name:
        return f'its name is {tables["name"]}'
    for table, (needed, of_words, others) in KEYS.items():
        here, wanted = tables[table].keys(), set(needed.split() + (of_words.split() if has_words else []))
        if wanted - here:
            return f'{table}.{min(wanted - here)} is wanting'
        if here - wanted - set(others.split()):
            return f'{table}.{min(here - wanted - set(others.split()))} is no key of it'
    for key, values in VALUES.items():
        table, part = key.split('.')
        if tables[table].get(part, values[0]) not in values:
            return f'{key} is none of ' + ', '.join(map(str, values))
    return None


class Effect:
    """An entry, effects/NAME.toml: its name, its variant and its crate, and a table for each crate that has a generated file."""

    def __init__(self, name):
        with open(os.path.join(FOLDER, f'{name}.toml'), 'rb') as file:
            self.tables = tomllib.load(file)
        fault = fault_of(name, self.tables)
        if fault:
            sys.exit(f'effects/{name}.toml: {fault}')
        self.name = name
        self.variant = self.tables['variant']
        self.crate = self.tables['crate']
        # The constructor of it as the definitions know effects.
        self.shape = f'Of{self.variant}'
        # The form of its stage that the prover knows blocks by, Mapped, Selected or Tapped, if it is one of these.
        self.is_passed = self.get('stage.form') is not None

    def get(self, key):
        """What stands under a key `table.name`, or None."""
        table, name = key.split('.')
        found = self.tables[table].get(name)
        return found.rstrip('\n') if isinstance(found, str) else found

    def title(self):
        return self.get('help.title') or self.name

    def page(self):
        """Its section of docs/effects.md."""
        try:
            with open(os.path.join(FOLDER, f'{self.name}.md'), encoding='utf-8') as file:
                return file.read()
        except FileNotFoundError:
            sys.exit(f'effects/{self.name}.md is missing: it has the section of docs/effects.md')

    def in_code(self, path):
        """It as a pattern over an enum of code: with its argument, where it has one."""
        argument = self.get('effect.argument')
        return f'{path}::{self.variant}({argument})' if argument else f'{path}::{self.variant}'

    def value(self, constructor=None):
        """It as a pattern in definitions: with its value, where it has one, in brackets."""
        value = self.get('act.value')
        name = constructor or self.shape
        return f'({name} {value})' if value else name

    def with_value(self, value):
        """It with this value, as an argument in definitions; `value` is None where it has none."""
        if value is None:
            return self.shape
        return f'({self.shape} {bracketed(value)})'


def bracketed(text):
    """A term as an argument."""
    return text if ' ' not in text else f'({text})'


def effects():
    return [Effect(name) for name in effect_names()]
