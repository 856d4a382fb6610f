"""dcshift shift"""

from rules import Effect, Refused, count, gain_text, in_profile, read_gain


def dcshift_words(source):
    return [gain_text(source)] + source.choice(([], [], [], ["0.1"], ["0.1", "1"]))


@in_profile(dcshift_words)
def dcshift(words, rate, channels, file):
    count(words, 1, 2)
    read_gain(2, words[0], -2, 2)
    if len(words) > 1:
        raise Refused("NotInProfile", 3)
    return Effect(rate, channels)
