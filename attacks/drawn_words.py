"""Records for `answer`, as a stranger may write them: words of questions, well-formed or not, references, cursors, and damaged bytes.

All draws are those of a `random.Random`.
"""

import base64
import re

import mutations

COMMANDS = ["show", "candidates", "match", "match", "match", "places", "places", "why", "why"]
OTHER_COMMANDS = ["", "help", "explain", "batch", "batch match", "answer", "legs", "lines", "--version", "-h", "Match", "matc", "--", "show match", "--format json match"]
# What tolerances a reference and its cursors have in common.
TOLERANCES = [[], ["--lowest", "3", "--bearing", "8"], ["--radius", "150", "--percent=40"]]
# Words that name files or ask for help, options of other commands or of none, and words that are none at all.
STRANGE = ["--all", "--help", "-h", "-V", "--map .", "--map=/", "--nodes town.nodes", "--lines=town.lines", "--bans=/dev/stdin", "--bans town.bans", "--input given"]
STRANGE += ["--input=/dev/zero", "--confidence x", "--detail", "--shape", "--order likely", "--profile feed", "--near 5", "--at 8:1.1.1", "--part inner", "--bogus"]
STRANGE += ["-", "", "--", "-x", "--=", "\u00e9", "\u2028", "'", '"', "\\", "match", "8:1.1.1", "--after=", "--format", "--page"]
FORMATS = [*8 * ["json"], *4 * ["geojson"], "text", "text", "xml", "", "JSON", "GeoJSON"]
PARTS = [*4 * ["route", "outer", "inner"], "middle", ""]
# What a command may have beside numbers: in a record, and in a batch too.
FLAGS = {"candidates": ["--detail", "--shape"], "match": ["--detail", "--shape"], "places": ["--detail", "--shape", "--order likely"], "why": ["--shape"]}
# What is put somewhere into a record.
BYTES = [b" ", b"  ", b"-", b"--", b" -- ", b" -- -- ", b"\t", b"\t\t", b"\r", b"\0", b"\x01", b"\x1b[2J", b"\x7f", b"\xff", b"\xc3", b"\xed\xa0\x80", b"\xc3\xa9"]
BYTES += ["\u2028".encode(), "\U0001f6a7".encode(), b'"', b"\\", b"=", b"/../", b"\n", b"\r\n"]
KEYS = [b"", b"", b"", b"key\t", b"\t", "\u00e9\"\\/\t".encode(), b"\x01\x1f\x7f\x08\x0c\r\t", "\u2028\uffff\U0001f6a7\t".encode(), b" -- \t"]
LONGEST = 65_536  # bytes of a record


def along_a_line(text):
    """A reference with two points, as one of a point along that line."""
    data = base64.b64decode(text)
    return base64.b64encode(b"\x2b" + data[1:]).decode()


class Records:
    """Draws records, with these references, and with the cursors of each and of the number of its tolerances."""

    def __init__(self, draws, references, cursors):
        self.draws, self.references, self.cursors = draws, references, cursors

    def record(self):
        """A record without its end."""
        draws = self.draws
        data = draws.choice(KEYS) + self.text().encode("utf-8", "surrogateescape")
        if draws.random() < 0.005:
            size = LONGEST + draws.choice([-1, 0, 1, 2])
            data = data[:1000] + (size - len(data[:1000])) * draws.choice([b"A", b" ", b"\xff"])
        for _ in range(draws.choice([*9 * [0], 1, 1, 2])):
            at = draws.randint(0, len(data))
            data = data[:at] + draws.choice(BYTES) + data[at + draws.choice([0, 0, 1]) :]
        return data + draws.choice([b"", b"", b"", b"\r"])

    def text(self):
        """Words and a reference."""
        draws = self.draws
        reference, number = draws.choice(self.references), draws.randrange(len(TOLERANCES))
        words = self.words(reference, number)
        reference = self.changed(reference)
        how = draws.random()
        if how < 0.8:
            return " ".join([*words, "--", reference])
        if how < 0.98:
            words.insert(draws.choice([1, 1, 1, len(words)]), reference)
        return " ".join(words)

    def changed(self, reference):
        """A reference as it is, or damaged."""
        return mutations.change_reference(reference, self.draws) if self.draws.random() < 0.2 else reference

    def reference(self):
        """A reference for a record whose text it is: without the bytes that end a record or a key."""
        return re.sub("[\t\n]", " ", self.changed(self.draws.choice(self.references)))

    def words(self, reference, number):
        """The words of a question about a reference with the tolerances of a number, and others."""
        draws = self.draws
        command = draws.choice(COMMANDS if draws.random() < 0.96 else OTHER_COMMANDS)
        words = [command] if command == "show" and draws.random() < 0.9 else [command, *TOLERANCES[number]]
        behind = draws.random() < (0.4 if command == "match" else 0.02)
        if behind:
            words += self.written("--after", self.cursor(reference, number))
        if (len(words) > 1 or command != "show") and not (behind and draws.random() < 0.8):
            for _ in range(draws.choice([0, 0, 1, 1, 2])):
                words += self.option(words)
        if draws.random() < 0.3:
            words += self.written("--format", draws.choice(FORMATS))
        words += self.flags(command, 0.1)
        if command in ("match", "places") and draws.random() < 0.1:
            words += self.written("--part", draws.choice(PARTS))
        if draws.random() < 0.06:
            words.insert(draws.randint(1, len(words)), draws.choice(STRANGE))
        if draws.random() < 0.03:
            words.append(draws.choice(words[1:] or words))
        return words

    def option(self, words):
        """An option with a number: mostly one of the command, and not given before."""
        given = {word.split("=")[0] for word in words}
        name = mutations.number_of(words, self.draws)
        if f"--{name}" in given and self.draws.random() < 0.9:
            return []
        return self.written(f"--{name}", mutations.value_of(name, self.draws))

    def flags(self, command, share):
        """What the command may have beside numbers, each with this probability."""
        return [word for flag in FLAGS.get(command, []) if self.draws.random() < share for word in flag.split(" ")]

    def written(self, name, value):
        """An option as one word or as two."""
        return [f"{name}={value}"] if self.draws.random() < 0.4 else [name, value]

    def cursor(self, reference, number):
        """A cursor: mostly one of the reference with these tolerances, if it has any; else one of another list, or a damaged one."""
        draws = self.draws
        found = self.cursors.get((reference, number)) if draws.random() < 0.85 else None
        found = found or draws.choice(list(self.cursors.values()))
        cursor = draws.choice([one for one in found if "@" in one and draws.random() < 0.8] or found)
        return mutations.change_cursor(cursor, draws) if draws.random() < 0.15 else cursor
