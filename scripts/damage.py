"""Damaged texts, for scripts/differential: tokens and bytes of a problem or a proof that are gone, stand twice, change places or are others, and
what a user of another program, or an enemy, may write in an odd place."""
from second_reader import LARGEST, TOKEN, is_integer

# Bytes that are white space, that stand at an end of a class of bytes, or that stand nowhere.
BYTES = " \t\r\n\x0b\x0c\x00\x7f\x80\xa0\xff;:<>=-~*+[]{}^_#.,/09azAZ"
# Words and symbols: right ones, forms that are left out, misspelt names, and words that stand nowhere.
WORDS = [
    ";", ":", ">=", "<=", "=", "->", "<", ">", ">>=", "=>", "==", "->=", "<->", "min", "min:", "max", "max:", "soft:", "soft", "[2]", "[", "MIN:",
    "min :", "x1", "~x1", "x2", "__", "x[1]^{2}-", "x1->1", "x1->=1", "x", "~", "_", "~~x1", "x1+2", "x1.", "x1#", "~x", "~1", "9x", "-x1", "+", "-",
    "+-1", "--1", "1.5", "1e3", "0x1", "1", "-0", "+1", "007", "2", "*", "**", "#1", "'x1'", "\x00", "\x00x1", "\x80x1", "\xffx1", "\xc3\xa4x",
    "x\xc3\xa4", "x1\x00", "1\x00", "\xa0", "x1\xa0",
]
# Integers at the limit, behind it, of a thousand digits, and of many digits that count nothing.
NUMBERS = [f"{sign}{LARGEST + more}" for sign in ("", "-", "+") for more in (-1, 0, 1)]
NUMBERS += ["9" * 1000, "-" + "9" * 1000, "+" + "0" * 1000 + "1", "0" * 1000]
# What stands in a problem as it is, or in an odd place.
PHRASES = [
    "1 x1 ;", "1 x1 >= 1", "min: 1 x1 ;", "\nmin: 1 x1 ;\n", "max: 1 x1 ;", "soft: 3 ;", "[1] 1 x1 >= 1 ;", "1 x1 <= 1 ;", "1 x1 x2 >= 1 ;",
    "x1 >= 1 ;",
    "1 x1 1 >= 1 ;", ">= 1 ;", "= 0 ;", "min: ;", "min: 1 x1 3 ;", "min: 3 ;", "min: x1 ;", "+ 3 x1 >= 1 ;", "3 ~ x1 >= 1 ;", "1 x1 > 1 ;",
    "\n* a comment ; min: 1 x1\n", "\n \t* 9 >= \xff\x00\n", "\n*\n", "* 1 x1 ;", "\r* no comment\n", "\r", "\r\n", "\n\n", "\n;", "\t", "\x0b",
]


def token_damaged(pick, text):
    """A token is gone, stands twice, changes places with the next one, is another one, or has words before it."""
    found = list(TOKEN.finditer(text))
    if not found:
        return text
    at = pick.randrange(len(found))
    one, next_one = found[at], found[min(at + 1, len(found) - 1)]
    before, word, behind = text[: one.start()], one.group(), text[one.end() :]
    kind = pick.choice(["gone", "twice", "swapped", "another", "another", "words", "words", "words"])
    if kind == "swapped":
        return before + next_one.group() + text[one.end() : next_one.start()] + word + text[next_one.end() :]
    other = pick.choice(pick.choice([WORDS, WORDS, NUMBERS] if kind == "another" else [WORDS, NUMBERS, PHRASES, PHRASES]))
    space = pick.choice([" ", " ", ""])
    return before + {"gone": "", "twice": f"{word} {word}", "another": other, "words": other + space + word}[kind] + behind


def closing_gone(pick, text):
    """A `;`, or a relation, is gone."""
    places = [it for it in TOKEN.finditer(text) if it.group() in (";", ">=", "=")]
    if not places:
        return text
    gone = pick.choice(places)
    return text[: gone.start()] + text[gone.end() :]


def lines_shuffled(pick, text):
    lines = text.split("\n")
    pick.shuffle(lines)
    return "\n".join(lines)


def line_twice(pick, text):
    lines = text.split("\n")
    lines.insert(pick.randint(0, len(lines)), pick.choice(lines))
    return "\n".join(lines)


def byte_damaged(pick, text):
    """A byte is another one, is gone, or is put in."""
    at, byte = pick.randint(0, len(text)), pick.choice([pick.choice(BYTES), chr(pick.randrange(256))])
    kind = pick.choice(["another", "gone", "more"])
    return text[:at] + ("" if kind == "gone" else byte) + text[at + (kind != "more") :]


def cut_short(pick, text):
    return text[: pick.randint(0, len(text))]


def words_behind(pick, text):
    return text + pick.choice(["", "\n"]) + pick.choice(pick.choice([WORDS, NUMBERS, PHRASES])) + pick.choice(["", " ", "\n"])


DAMAGES = (token_damaged, token_damaged, token_damaged, byte_damaged, byte_damaged, closing_gone, lines_shuffled, line_twice, cut_short, words_behind)


def damaged(pick, text):
    """A text with one damage, seldom with two or three."""
    for _ in range(pick.choice((1, 1, 1, 1, 2, 3))):
        text = pick.choice(DAMAGES)(pick, text)
    return text


def integer_dressed(pick, word):
    """The same integer with a sign, or with zeros that count nothing."""
    zeros = pick.choice(["", "", "0", "00"])
    return f"-{zeros}{word[1:]}" if word.startswith("-") else pick.choice(["", "+"]) + zeros + word


def dressed(pick, text):
    """The same problem, written otherwise: other white space, none beside symbols, comments, signs, and zeros that count nothing."""
    spaces = pick.choice([(" ",), (" ", "  ", "\t"), ("\r\n",), ("\n", " "), (" ", "\n* 1 x1 >= ; \xff\n", "\n\t *\n")])
    symbols, before = (";", ":", ">=", "="), ";"
    written = pick.choice(["", "* #variable= 9 #constraint= 9\n", "\r\n"])
    for word in TOKEN.findall(text):
        bare = word in symbols or before in symbols
        written += "" if bare and pick.random() < 0.5 else pick.choice(spaces)
        written += integer_dressed(pick, word) if is_integer(word) else word
        before = word
    return written + pick.choice(["", "\n", "\r\n", "\n*", "\n* ;"])
