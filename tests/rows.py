"""A reader of files of rows, as the crate `test_rows` reads them. CONTRIBUTING.md has their format (A row)."""
import re
from typing import NamedTuple

# The most repetitions of a text, and the most bytes to fill a word to.
MOST = 8_388_608

# A text in quotes with what follows it, or a name; and a word, of such pieces, or bare.
PIECE = rb'(?:"(?:[^"\\]|\\.)*"[^ +"]*|\$[^ +"]*)'
WORD = re.compile(rb'(?<![^ ])(?:%b(?:\+%b)*|[^ "$][^ "]*)(?![^ ])' % (PIECE, PIECE))
ESCAPE = re.compile(rb"\\(?:x([0-9A-Fa-f]{2})|(.?))", re.DOTALL)
ESCAPED = {b"n": b"\n", b"r": b"\r", b"t": b"\t", b"\\": b"\\", b'"': b'"'}


class Unread(Exception):
    """Why a row can't be read or asked. Nothing after it is read."""


class Row(NamedTuple):
    """A question: the number of its line, its words, and the answer that is wanted."""

    number: int
    words: list
    wanted: bytes


def unescaped(text, number=None):
    """A text with the bytes that its escapes stand for. A `\\i` stands for the number, if there is one."""

    def byte(found):
        digits, letter = found.groups()
        if digits:
            return bytes([int(digits, 16)])
        if letter == b"i" and number is not None:
            return b"%d" % number
        if letter not in ESCAPED:
            raise Unread("a character that can't stand there")
        return ESCAPED[letter]

    return ESCAPE.sub(byte, text)


def repeated(text, count):
    """The text in quotes, as often as this: each with its number, if it has one."""
    if b"\\i" in text:
        return b"".join(unescaped(text, number) for number in range(count))
    return unescaped(text) * count


def filled(word, text, length):
    """A word, and after it the text in quotes until the word has this length."""
    word, same = bytearray(word), None if b"\\i" in text else unescaped(text)
    for number in range(length):
        if len(word) >= length:
            break
        word += unescaped(text, number) if same is None else same
    if len(word) != length:
        raise Unread("the text does not fill the word to its length")
    return bytes(word)


def with_piece(word, piece, texts):
    """A word, and after it a piece."""
    if piece.startswith(b"$"):
        if piece[1:] not in texts:
            raise Unread("no text has this name")
        return word + texts[piece[1:]]
    found = re.fullmatch(rb'"(.*)"(?:\*(\.\.)?(\d+))?', piece, re.DOTALL)
    if not found or int(found[3] or 1) > MOST:
        raise Unread("no number of repetitions, or too many")
    text, count = found[1], int(found[3] or 1)
    return filled(word, text, count) if found[2] else word + repeated(text, count)


def with_word(word, read, texts):
    """A word or what is read of an answer, and after it a word of a line: a bare one, or its pieces."""
    if read[:1] not in (b'"', b"$"):
        return word + read
    for piece in re.findall(PIECE, read, re.DOTALL):
        word = with_piece(word, piece, texts)
    return word


def answer_of(read, texts):
    """The answer that stands on a line, its words one blank apart."""
    answer = b""
    for it in read:
        answer = with_word(answer, it, texts) + b" "
    return answer[:-1]


def words_of(line):
    """The words of a line, as they stand there."""
    if WORD.sub(b"", line).strip(b" "):
        raise Unread("a character that can't stand there, or the line ends within a word")
    return WORD.findall(line)


def row_of(line, behind, texts):
    """The words of a row, and its answer, which a row that names a text does not have. After its line come the lines of a text."""
    read = words_of(line)
    place = read.index(b"=") if b"=" in read else len(read)
    words, answer = [with_word(b"", it, texts) for it in read[:place]], answer_of(read[place + 1:], texts)
    text = b"".join(unescaped(it) + b"\n" for it in behind)
    if not words:
        raise Unread("too few words")
    has_answer, is_naming = place < len(read), words[0] == b"text"
    if place + 1 == len(read) or not (has_answer or is_naming or text):
        raise Unread("no answer is wanted")
    if not (has_answer or is_naming):
        return words, text
    return [*words, *([text] if text else [])], answer


def name_text(texts, words):
    """Gives a text its name, which no other has."""
    if len(words) != 3:
        raise Unread("too few words, or too many")
    if words[1] in texts:
        raise Unread("another text has this name")
    texts[words[1]] = words[2]


def lines_of(text):
    """The line of each row with its number, and the lines of a text that follow it."""
    row = None
    for number, line in enumerate(text.split(b"\n"), 1):
        if line.startswith(b"|"):
            if not row:
                raise Unread(f"{number}: lines of a text behind no row")
            row[2].append(line[1:])
            continue
        if row:
            yield row
        row = (number, line, []) if line and not line.startswith(b"#") else None
    if row:
        yield row


def read_rows(text, texts):
    """The questions of a file of this text. The texts that it names are added to those whose names are known."""
    for number, line, behind in lines_of(text):
        try:
            words, wanted = row_of(line, behind, texts)
            if words[0] != b"text":
                yield Row(number, words, wanted)
            else:
                name_text(texts, words)
        except Unread as fault:
            raise Unread(f"{number}: {fault}") from None


def read_file(path, texts):
    """The questions of the file at a path."""
    try:
        return list(read_rows(path.read_bytes(), texts))
    except Unread as fault:
        raise Unread(f"{path.name}:{fault}") from None


def questions_of(path):
    """The questions of a file of rows, in their order. The files beside it that end in .texts name texts that it may call."""
    texts = {}
    for file in sorted(path.parent.glob("*.texts")):
        if read_file(file, texts):
            raise Unread(f"{file.name}: a file of texts asks something")
    return read_file(path, texts)
