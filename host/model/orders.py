"""Every mix of refusals of a call of the model, for the tests of the order in which they come."""
import itertools


def refused(call, *arguments):
    """The number of a call, which must count 0 and leave every argument as it was."""
    before = [bytes(argument) if isinstance(argument, bytearray) else argument for argument in arguments]
    answer = call(*arguments)
    assert before == list(arguments)
    number, count = answer if isinstance(answer, tuple) else (answer, 0)
    assert count == 0
    return number


def order(call, good, ways):
    """Tries every mix of ways to be refused; the first number in the call's order is due. A way is a change of the good arguments."""
    cases = 0
    for mix in itertools.product(*[[{}] + changes for changes in ways.values()]):
        due = [number for number, change in zip(ways, mix) if change]
        if due:
            arguments = dict(good)
            for change in reversed(mix):
                arguments.update(change)
            assert refused(call, *arguments.values()) == due[0], (call, mix)
            cases += 1
    return cases
