"""The rules of command lines and plans, computed from whole texts with exact fractions.

It shares nothing with the program but the order of the effects' names. The rules of the effects stand in scripts/rules.
`answers(lines)` gives what has to come of lines as crates/tests_plan_lines reads them.
"""

import importlib
import pkgutil
import re
import sys

import rules
from effect_list import effect_names
from rules import Effect, Refused

# All effects of SoX 14.4.2.
SOX = """allpass band bandpass bandreject bass bend biquad channels chorus compand contrast dcshift deemph delay dither downsample
earwax echo echos equalizer fade fir flanger gain highpass hilbert ladspa loudness lowpass mcompand noiseprof noisered norm oops
overdrive pad phaser pitch rate remix repeat reverb reverse riaa silence sinc spectrogram speed splice stat stats stretch swap
synth tempo treble tremolo trim upsample vad vol""".split()

LINE_FAULTS = "MissingFile BadOption NoOutputType BadBits".split()
PLAN_FAULTS = """UnknownEffect NotInProfile NeedsWholeSound WrongCount BadArgument OutOfRange PositionBehind NoSuchChannel
TooManyChannels RateNotDivisible RateTooLarge TooManyEffects BadCoefficients HoldTooLarge TooLong""".split()

sys.set_int_max_str_digits(0)

WAVE = {8: "U8", 16: "S16Le", 24: "S24Le", 32: "S32Le"}
AU = {8: "S8", 16: "S16Be", 24: "S24Be", 32: "S32Be"}


def profile():
    """The rules of all modules, in the order of the programs' table; those that it lacks come last."""
    for module in pkgutil.iter_modules(rules.__path__):
        importlib.import_module(f"rules.{module.name}")
    names = effect_names()
    return {name: rules.RULES[name] for name in sorted(rules.RULES, key=lambda name: [*names, name].index(name))}


PROFILE = profile()
WHOLE_SOUND = [name for name in ("reverse", "norm", "repeat") if name not in PROFILE]
LEFT_OUT = [name for name in SOX if name not in PROFILE and name not in WHOLE_SOUND]
NAMES = [*PROFILE, *WHOLE_SOUND, *LEFT_OUT]


def read_effect(number, words, rate, channels, file):
    name, rest = words[0], words[1:]
    if number > 32:
        raise Refused("TooManyEffects", 1)
    if name in WHOLE_SOUND:
        raise Refused("NeedsWholeSound", 1)
    if name in LEFT_OUT:
        raise Refused("NotInProfile", 1)
    if name not in PROFILE:
        raise Refused("UnknownEffect", 1)
    return PROFILE[name].read(rest, rate, channels, file)


def effects_of(words):
    """The words cut at the names; the first word is one, whatever it is."""
    starts = [i for i, word in enumerate(words) if i == 0 or word in NAMES]
    return [words[a:b] for a, b in zip(starts, starts[1:] + [len(words)])]


def file_of(words):
    return words[1] if words[0] == "fir" and len(words) == 2 and words[1] != "-" else None


def message(number, fault, words):
    text = words[fault.word - 1]
    code = PLAN_FAULTS.index(fault.name) + 1
    return f"effect {number} {shown(words[0])}: {code} {fault.name}: {shown(text)} (word {fault.word})"


def plan_of(effects, rate, channels, files):
    """The effects of a plan, or the message of its fault."""
    made = []
    for number, words in enumerate(effects, 1):
        before = made[-1] if made else Effect(rate, channels)
        try:
            file = files.get(file_of(words))
            made.append(read_effect(number, words, before.rate, before.channels, file))
        except Refused as fault:
            return message(number, fault, words)
    if 1 + sum(effect.line + 1 for effect in made) > 2**28:
        return "effects: 14 HoldTooLarge"
    if max(mosts(made, 2**40)) > 2**56:
        return "effects: 15 TooLong"
    return made


def mosts(made, frames):
    lengths = [frames]
    for effect in made:
        lengths.append(effect.most(lengths[-1]))
    return lengths


# ---- the words before the effects


class BadLine(Exception):
    """A fault of the command line, by its name."""


def front_of(words, takes_bits):
    """The options before a file, the file, and the words after it."""
    kind = bits = None
    words = list(words)
    while words:
        word = words.pop(0)
        if word == "-" or not word.startswith("-"):
            return kind, bits, word, words
        if word == "-D":
            continue
        if word not in ("-t", "-b") or (word == "-b" and not takes_bits) or not words:
            raise BadLine("BadOption")
        value = words.pop(0)
        if word == "-t":
            if value not in ("wav", "au"):
                raise BadLine("BadOption")
            kind = value
        else:
            if value not in ("8", "16", "24", "32"):
                raise BadLine("BadBits")
            bits = int(value)
    raise BadLine("MissingFile")


def line_of(words):
    """IN, OUT, kind and bits of OUT, and the effects."""
    _, _, source, words = front_of(words, False)
    kind, bits, target, words = front_of(words, True)
    ending = re.search(r"\.(wav|au|snd)\Z", target, re.IGNORECASE | re.ASCII)
    if kind is None and ending is None:
        raise BadLine("NoOutputType")
    kind = kind or ("wav" if ending[1].lower() == "wav" else "au")
    return source, target, kind, bits, effects_of(words)


# ---- lines


def shown(text):
    return re.sub("[\x00-\x1f\x7f%]", lambda found: f"%{ord(found[0]):02X}", text)


def plain(text):
    """The bytes of a text; a ValueError where digits are missing after `%`."""
    if re.search("%(?![0-9A-Fa-f]{2})", text):
        raise ValueError(text)
    return re.sub(rb"%([0-9A-Fa-f]{2})", lambda found: bytes([int(found[1], 16)]), text.encode())


def head_of(fields):
    """Rate, channels and bits of a head's fields; a ValueError where it has another form."""
    found = re.fullmatch(r"(?:wav|au)\t([0-9]+)\t([0-9]+)\t(8|16|24|32)", "\t".join(fields))
    rate, channels, bits = map(int, found.groups() if found else (0, 0, 0))
    if not 1 <= rate < 2**32 or not 1 <= channels <= 16:
        raise ValueError(fields)
    return rate, channels, bits


def answer(words, head, files):
    """The answer to a command line after a head."""
    try:
        source, target, kind, bits, effects = line_of(words)
    except BadLine as fault:
        return f"command line: {LINE_FAULTS.index(str(fault)) + 1} {fault}"
    if head is None:
        return "?"
    rate, channels, input_bits = head
    for name in map(file_of, effects):
        if name is not None and name not in files:
            return f"cannot open {shown(name)}"
    made = plan_of(effects, rate, channels, files)
    if isinstance(made, str):
        return made
    last = made[-1] if made else Effect(rate, channels)
    coding = (WAVE if kind == "wav" else AU)[bits or input_bits]
    hold = 1 + sum(effect.line + 1 for effect in made)
    told = [f"{words[0]} {effect.line + 1}" for words, effect in zip(effects, made)]
    parts = [f"from {shown(source)} to {shown(target)}: {kind.capitalize()} {coding}, rate {last.rate}"]
    parts[0] += f", channels {last.channels}, hold {hold}, work {sum(mosts(made, 1000))}"
    return "; ".join(parts + told)


def take(line, known):
    """The answer to a line, if it has one; what is known are a head and files."""
    kind, *fields = line.split("\t")
    if kind == "head":
        known.update(head=None, files={})
        known["head"] = head_of(fields)
        return None
    if kind == "file":
        name, data = fields
        known["files"][plain(name).decode()] = plain(data)
        return None
    if kind != "plan":
        raise ValueError(line)
    return answer([plain(field).decode() for field in fields], known["head"], known["files"])


def answers(lines):
    """What has to come of lines, by the forms that crates/tests_plan_lines reads; `?` where one has another form."""
    known, given = {"head": None, "files": {}}, []
    for line in lines:
        try:
            given.append(take(line, known))
        except ValueError:
            given.append("?")
    return [line for line in given if line is not None]
