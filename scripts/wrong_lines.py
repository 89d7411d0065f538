"""Edits of wrong_kernels.py: W and T lines, E lines, the program's input. Those of P lines are in wrong_pairs.py, those of C lines in wrong_runs.py."""

EDITS = [
    ("a leading zero passes", "lines", 'digits != "0" and ', ""),
    ("a fifth digit passes", "lines", "len(digits) < 4", "len(digits) < 5"),
    ("a fourth digit refused", "lines", "len(digits) < 4", "len(digits) < 3"),
    ("bytes after the line feed pass", "lines", "        if self.at < len(self.text):\n            raise Refused(14, self.at)\n", ""),
    ("a letter of a line cut to a byte", "lines", "    letters = scanner.fields(scanner.field())", "    letters = [a % 256 for a in scanner.fields(scanner.field())]"),
    (
        "T read: 13 before 1", "lines",
        "    check_tableau(rank, new_letters, new_marks)\n    check_room(len(new_letters), letters, marks)\n",
        "    check_room(len(new_letters), letters, marks)\n    check_tableau(rank, new_letters, new_marks)\n",
    ),
    ("r and d exchanged", "lines", '"rd"[marks[place]]', '"dr"[marks[place]]'),
    ("a place of an E line cut to four digits", "lines", 'line("E", [number, place])', 'line("E", [number, place % 10000])'),
    ("a number of an E line cut to four bits", "lines", 'line("E", [number, place])', 'line("E", [number % 16, place])'),
    ("4,097 bytes judged", "lines", "len(text) > 4096", "len(text) > 4097"),
    ("4,096 bytes refused", "lines", "len(text) > 4096", "len(text) > 4095"),
    ("the length as the place of a long input", "lines", "Refused(14, 4096)", "Refused(14, len(text))"),
]

EDGES = [
    ("a text of more than 4,096 bytes read", "lines", "len(text) > 4096", "len([byte for byte in text]) > 4096"),
]
