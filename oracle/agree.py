"""Whether another reader's answer for a load file agrees with the oracle's. Shared by compare, answers/make and tools/answers.

The oracle's `beyond N` is read as `refused N`, and where it says `skip` nothing is compared. Every line must be the same, but for loads
with `max_transfers` 2, which the oracle starts with the line `changes 2`: the Rust goes by the middle ride first (request 10), so of a
journey of three rides only leave, arrival, rides and walk are compared. Where one side set a limit mark nothing is but the answers, the
table and the places; and where the Rust did, the other may have refused with 11, as an offer that would cut below 3600 ends `middle`.
"""
DEEP = "changes 2\n"


def figures(line):
    """A line without the origin, the target and the rides of a journey of three rides."""
    word, *fields = line.split(" ")
    at = {"journey": 0, "best": 1, "next": 1}.get(word)
    if at is None or fields[at + 2:at + 3] != ["3"]:
        return line
    return " ".join([word, *fields[:at + 4]])


def limited(answer):
    return any(line.startswith("horizon ") and not line.endswith(" limits 0") for line in answer.split("\n"))


def before(answer):
    return [line for line in answer.split("\n") if line.split(" ")[0] in ("answers", "call", "places")]


def compared(ours, theirs):
    """Whether journeys, horizon and queries were compared."""
    return ours != "skip" and not (ours.startswith(DEEP) and (limited(ours) or limited(theirs)))


def agree(ours, theirs):
    if ours == "skip":
        return True
    if not ours.startswith(DEEP):
        return ours.replace("beyond", "refused") == theirs
    ours = ours.removeprefix(DEEP)
    if limited(ours) or limited(theirs):
        return before(ours) == before(theirs) or theirs == "refused 11"
    return [figures(l) for l in ours.split("\n")] == [figures(l) for l in theirs.split("\n")]
