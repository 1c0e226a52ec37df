"""How a worked row is asked of the built program, and how what it prints is compared. Files and standard inputs are
texts, or bytes where they are no UTF-8; what has to be printed is a text."""
from program import hint_of, rewrite


def as_bytes(text):
    return text if isinstance(text, bytes) else text.encode()


def status_of(wanted):
    """The status that goes with an answer."""
    return {"denied": 1, "fault": 2}.get(wanted.split(" ")[0], 0)


def head_of(answer):
    """The lines of an answer before the evidence."""
    return answer.split(b"evidence ")[0]


class Asker:
    """Asks the built program, in whose folder nothing stands but the file `f`, and counts what it compares."""

    def __init__(self, program, tally):
        self.program, self.tally, self.test = program, tally, ""

    def printed(self, words, file, stdin=""):
        """The status, what is printed, and what goes to standard error, where the file `f` has this text."""
        (self.program.room / "f").write_bytes(as_bytes(file))
        return self.program.run(words, as_bytes(stdin))

    def check(self, name, found, wanted):
        self.tally.check(f"{self.test}: {name}", found, wanted)

    def check_answer(self, asked, answer, wanted):
        name = " ".join(map(str, asked))
        self.check(name[:300], answer, (status_of(wanted), as_bytes(wanted), hint_of(wanted)))

    def compare(self, words, file, stdin, wanted):
        """Compares what is printed, and the status."""
        self.check_answer((words, file[:60], stdin[:60]), self.printed(words, file, stdin), wanted)

    def compare_head(self, words, file, stdin, wanted):
        """The same of the lines before the evidence, and of those over the file written anew."""
        for text in (file, self.anew(words, file)):
            status, answer, errors = self.printed(words, text, stdin)
            self.check_answer((words, text[:60]), (status, head_of(answer), errors), wanted)

    def anew(self, words, file):
        """The file of a login or of a host's key, written anew."""
        status, new, errors = self.printed(rewrite("auth" if words[0] == "login" else "known", "f"), file)
        self.check("written anew", (status, errors), (0, b""))
        return new
