"""echo gain-in gain-out <delay decay>, and echos with the same words"""

import compare_texts as texts
from rules import Effect, Refused, gain_text, in_profile, read, read_gain, several


def echo_words(source):
    pairs = several(source, lambda s: [s.choice(("0.125", "1", "20", texts.number(s, 3))), gain_text(s)], (1, 1, 2, 7, 8))
    return [gain_text(source), gain_text(source)] + sum(pairs, [])


def echo_delays(words, rate):
    if len(words) > 16:
        raise Refused("WrongCount", 18)
    if len(words) < 4 or len(words) % 2:
        raise Refused("WrongCount", 1)
    read_gain(2, words[0], 0, 1)
    read_gain(3, words[1], 0, 1000)
    delays = []
    for number, text in enumerate(words[2:], 4):
        if number % 2:
            read_gain(number, text, 0, 1)
        else:
            delays.append(read(number, texts.millis, text, rate))
    return delays


@in_profile(echo_words)
def echo(words, rate, channels, file):
    longest = max(echo_delays(words, rate))
    return Effect(rate, channels, line=longest, more=longest)


@in_profile(echo_words)
def echos(words, rate, channels, file):
    total = sum(echo_delays(words, rate))
    return Effect(rate, channels, line=total, more=total)
