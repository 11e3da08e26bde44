"""The refusals of document 01 ("What a caller hears") and of document 02's slips, by their numbers."""

SETTINGS, TREE_SIZE, FRAME, DEPTH, KIND, FIELD, PLACE, TEXT_SIZE, BUFFER, READING_SIZE, ROW, GRAMMAR, ABSENT = range(1, 14)
CONSTANT_OPERANDS = 14    # reducing: an operator of two operands has two literals, and none of the rules reckons it


class Refused(Exception):
    """`number` is one of the above."""

    def __init__(self, number):
        super().__init__(number)
        self.number = number


def require(holds, number):
    if not holds:
        raise Refused(number)
