"""Papers damaged by chance: lines gone, twice, or elsewhere; values of another line or out of range; words left out."""
import re

VALUES = {
    "walks": ["1,2,3,4,5/0", "0/", "/0", "4/2"], "transfer-minutes": ["0", "255", "256"], "max-transfers": ["0", "1", "2", "3"],
    "now": ["8:00", "-1", "1099511627777", "0"], "epochs": ["0,0,0", "0,-24:00,24:00", "0,0,-1099511627777"],
    "id": ['""', '"mill"', '"start"', '"Łódź"', '"' + "i" * 33 + '"'],
    "name": ['""', '"Quay"', '"Łódź"', '"\\x07"', '"\\xff"', '"é é"', '"' + "n" * 65 + '"'],
    "parent": ['"central"', '"cross"', '"mill"', "none"], "type": ["0", "1", "2", "3", "4"], "position": ["none", "52.4,16.9", "91,0"],
    "members": ["0/", "/0", "0/0", "3/3", "4/"], "trip": ["1", "101", "65535", "65536"], "day": ["0", "1", "2", "3"],
    "sequence": ["1", "2", "3", "4294967295"], "stop": ["0", "3", "127", '"mill"', '"nowhere"'], "from": ["0", "40"], "to": ["0", "1"],
    "arrival": ["none", "8:30", "0:16", "8:99", "30000"], "departure": ["none", "8:30:30", "0:16", "8:5", "30000"],
    "pickup": ["1", "3", "4"], "drop-off": ["1", "4"], "seconds": ["none", "0", "65535", "65536"]}
WORD = re.compile(r'([a-z-]+)=("(?:[^"\\]|\\.)*"|[^\s"#]+)')


def another(chance, line):
    """One value of a line changed, or its word left out."""
    found = [match for match in WORD.finditer(line.split("#")[0]) if match[1] in VALUES]
    if not found:
        return line
    word = chance.choice(found)
    new = "" if chance.random() < .15 else f"{word[1]}={chance.choice(VALUES[word[1]])}"
    return line[:word.start()] + new + line[word.end():]


def damaged(chance, text):
    lines = [line for line in text.split("\n") if line.strip() and not line.startswith("#")]
    for _ in range(chance.randint(1, 3)):
        i, j = chance.randrange(len(lines)), chance.randrange(len(lines))
        way = chance.random()
        if way < .6:
            lines[i] = another(chance, lines[i])
        elif way < .7 and len(lines) > 2:
            del lines[i]
        elif way < .85:
            lines.insert(j, lines[i])
        else:
            lines[i], lines[j] = lines[j], lines[i]
    return "\n".join(lines) + "\n"
