"""Hand-made cases of padded numbers: what is read, what is refused, what is done, and what the shortest form is."""

from examples import B, C, D, SMALL, WORDS_B, WORDS_C, WORDS_D, Desk
from kernel import program
from script import (NO_OPERATOR, number_bytes, number_forms, operator, operator_bytes, read_number, read_operator,
                    shorten, shortest)


def data_of(text):
    return bytes.fromhex(text.replace(" ", ""))


# Examples b, c and d, each number in any of its forms.
PADDED_B = data_of("818000 818000 818000 818000 818000 808000 808000 808000")
PADDED_C = data_of("8300 01 808000 8100 828000 00 C88100 8000 00")
PADDED_D = data_of("858000 818000 8100 02 8200 828000 828000 8000")

# A number's value and all its forms.
FORMS = [
    (0, ["00", "8000", "808000"]), (1, ["01", "8100", "818000"]), (127, ["7F", "FF00", "FF8000"]),
    (128, ["8001", "808100"]), (200, ["C801", "C88100"]), (16_383, ["FF7F", "FFFF00"]),
    (16_384, ["808001"]), (100_000, ["A08D06"]), ((1 << 21) - 1, ["FFFF7F"]),
]


def forms(tally):
    for value, texts in FORMS:
        tally.equal(f"forms of {value}", number_forms(value), [data_of(text) for text in texts])
        for text in texts:
            for behind in ("", "00", "80", "FF", "01"):
                data = data_of("EE" + text + behind)
                tally.equal(f"number {text} read, then {behind}", read_number(data, 1), (value, 1 + len(data_of(text))))
            tally.equal(f"number {text} cut off", read_number(data_of(text)[:-1], 0), None)
            tally.equal(f"number {text} shortened", shorten(data_of(text)), number_bytes(value))


# Bytes, and the operator that they are read as or the refusal.
READ = [
    ("04 8100", operator("kev", 1)), ("04 818000", operator("kev", 1)), ("848000 818000", operator("kev", 1)),
    ("8400 01", operator("kev", 1)), ("04 80C000", operator("kev", 8_192)), ("04 81C000", 5), ("04 808000", 5),
    ("09 8100 828000", operator("kfmrh", 1, 2)), ("09 00 8100", 5), ("09 8100 8000", 5), ("09 00 818080", 3),
    ("09 00 8180", 3), ("09 00 81808000", 3), ("84808000 01", 3), ("81 82 83 00", 3), ("8100", 3), ("818000", 3),
    ("8E00", 4), ("8E8000", 4), ("8000", 4), ("808000", 4), ("818100", 4), ("8100 81", 3), ("818000 8180", 3),
    ("0D 8100 81", 3), ("0D 81 00", 3), ("0A 8100 818000 8000", operator("mfkrh", 1, 1, 0)),
    ("8100 8100 8100 8100 8100 A18D06 8000 00", 5), ("8100 8100 8100 8100 8100 A28D06 8000 00", 5),
    ("0101010101 9F8D06 C88100 C78100", operator("mvsf", 1, 1, 1, 1, -50_000, 100, -100)),
    ("838000 80A000 80C000 80A000 80A000 818000 A08D06 9F8D06 A08D06",
     operator("mev", 4_096, 8_192, 4_096, 4_096, 1, 50_000, -50_000, 50_000)),
    ("858000 818000 808000 808000 818000 818000 818000 838000", operator("mef", 1, 0, 0, 1, 1, 1, 3)),
    ("858000 818000 808000 808000 818000 818000 818000 848000", 5),
]


def reading(tally):
    for text, wanted in READ:
        data = data_of(text)
        if isinstance(wanted, int):
            tally.equal(f"read {text}", read_operator(data, 0), (wanted, NO_OPERATOR, 0))
            continue
        tally.equal(f"read {text}", read_operator(data, 0), (0, wanted, len(data)))
        tally.equal(f"read {text} with more behind", read_operator(data + b"\0", 0), (0, wanted, len(data)))
        tally.equal(f"written again: {text}", operator_bytes(wanted), shorten(data))
        for end in range(len(data)):
            tally.equal(f"read {text} up to {end}", read_operator(data[:end], 0), (3, NO_OPERATOR, 0))
    tally.equal("the longest operator that is read", max(len(data_of(text)) for text, _ in READ), 27)


# Bytes and their shortest form; the second has to be shortest itself where it is read to its end.
SHORTENED = [
    ("", "", True), ("00 00", "00 00", True), ("81 80 00", "01", True), ("8100 8100", "01 01", True),
    ("8000 808000 00", "00 00 00", True), ("FFFF00 808100", "FF7F 8001", True),
    ("808001 FFFF7F", "808001 FFFF7F", True), ("8100 8E8000 FF00", "01 0E 7F", True),
    # cut off: the tail stays
    ("80", "80", True), ("8180", "8180", True), ("8100 81", "01 81", True), ("8100 8180", "01 8180", True),
    # too long: the tail stays, and what it has behind a high bit need not be shortest
    ("80808001", "80808001", True), ("818000 80808001", "01 80808001", True), ("8100 808080", "01 808080", True),
    ("81 82 83 00", "81 82 83 00", False), ("8100 81828300", "01 81828300", False),
    ("01 80808000 8100", "01 80808000 8100", False), ("8100 80808001 8100", "01 80808001 8100", False),
]


def shortening(tally):
    for text, wanted, is_shortest in SHORTENED:
        tally.equal(f"shortened: {text}", shorten(data_of(text)), data_of(wanted))
        tally.equal(f"shortest: {wanted}", shortest(data_of(wanted)), is_shortest)
    for text in ("8000", "8100", "818000", "01 8100", "FF7F FF00", "80 00 80", "8081 00"):
        tally.equal(f"not shortest: {text}", shortest(data_of(text)), False)


def padded_runs(tally):
    """b, c and d do what they do in shortest form, log and all; the bytes taken are those of the padded script."""
    desk = Desk(SMALL)
    for name, script, plain, words in (("b", PADDED_B, B, WORDS_B), ("c", PADDED_C, C, WORDS_C),
                                       ("d", PADDED_D, D, WORDS_D)):
        tally.equal(f"padded {name} shortened", shorten(script), plain)
        start = desk.session.log
        tally.equal(f"padded {name} run", desk.run(script), (0, 0, 1, len(script), start - 2))
        tally.equal(f"padded {name} words", desk.state()[0], words)
    tally.equal("padded bytes taken", (len(PADDED_B), len(PADDED_C), len(PADDED_D)), (24, 18, 19))
    tally.equal("the log is in shortest form", desk.live(), data_of("0604 0401 0201"))
    tally.equal("padded, then refused", Desk(SMALL).run(PADDED_B + PADDED_B), (7, 0, 1, 24, 198))
    tally.equal("padded, then cut off", Desk(SMALL).run(PADDED_B + PADDED_C[:-1]), (3, 0, 1, 24, 198))
    tally.equal("padded, then too long", Desk(SMALL).run(PADDED_B + data_of("82 80 80 00")), (3, 0, 1, 24, 198))
    tally.equal("program on padded b", program(PADDED_B), "refusal 0 done 1 used 24\ns 1 f 1 l 1 e 0 v 1 r 0 h 0\n")
    tally.equal("program on padded b, c, d", program(PADDED_B + PADDED_C + PADDED_D),
                "refusal 0 done 3 used 61\ns 1 f 2 l 2 e 2 v 2 r 0 h 0\n")


def padded_undos(tally):
    """A log that a stranger has padded is undone as well."""
    desk = Desk(SMALL)
    desk.run(B + C + D)
    desk.log, desk.session.log = bytearray(data_of("EEEE 8600 848000 848000 8100 02 818000")), 2
    before = bytes(desk.log)
    tally.equal("padded undo 1", desk.undo(1), (0, 0, 1, 7))
    tally.equal("padded undo 1 words", desk.state()[0], WORDS_C)
    tally.equal("padded undo 3", desk.undo(3), (11, 0, 2, 16))
    tally.equal("padded undo words", desk.state(), ([1, 2, 2, 2, 2] + [0] * 29, [0] * 6))
    tally.equal("padded log is only read", bytes(desk.log), before)
    for text, wanted in (("828000 81", 3), ("8200 81808000", 3), ("8E00", 4), ("8200 8000", 5), ("8200 8100", 6)):
        desk.log, desk.session.log = bytearray(data_of(text)), 0
        tally.equal(f"padded undo of {text}", desk.undo(1), (wanted, 0, 0, 0))


PADDED_EXAMPLES = (forms, reading, shortening, padded_runs, padded_undos)
