"""What a grant shows of the record's `deepest`, the greatest SHR reached since start: where it stood before, and what became of it."""
from model import NAMES

# Random and stored cases must show all of it.
SHOWN = {
    "refused at SHR-1", "refused at S", "accepted at SHR", "accepted at S-1", "accepted between", "accepted at -1",
    "raised", "raised and left behind", "kept by POP", "kept by PUSH", "kept by a failing PUSH",
}


def shown(image, before, outcome, after):
    """Those that one grant shows."""
    shr, deepest, s = before["shr"], before["deepest"], before["s"]
    if outcome == 15 and before["b"] - 1 <= shr < s:
        return {name for name, value in (("refused at SHR-1", shr - 1), ("refused at S", s)) if deepest == value}
    if isinstance(outcome, int):
        return set()
    found = {name for name, value in (("accepted at SHR", shr), ("accepted at S-1", s - 1), ("accepted at -1", -1)) if deepest == value}
    if shr < deepest < s - 1:
        found.add("accepted between")
    if deepest < after["deepest"]:
        found.add("raised" if after["shr"] == after["deepest"] else "raised and left behind")
    elif after["shr"] != shr:
        found.add("kept by POP" if after["shr"] < shr else "kept by PUSH")
    stopped_at = image[4 * after["iar"]] if after["iar"] < before["t"] else 0
    if stopped_at == NAMES.index("PUSH") + 1 and (before["ircr"], after["ircr"]) == (0, 1) and deepest == after["deepest"]:
        found.add("kept by a failing PUSH")
    return found
