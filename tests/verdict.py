"""What the tests of the two commands share: each has a name, what came, and what must come."""


def verdict(tests):
    """Prints the tests that failed and `N passed, M failed`; the exit status."""
    failed = [(name, got, wanted) for name, got, wanted in tests if got != wanted]
    for name, got, wanted in failed:
        print(f'{name}: got {got}, not {wanted}')
    print(f'{len(tests) - len(failed)} passed, {len(failed)} failed')
    return 1 if failed else 0
