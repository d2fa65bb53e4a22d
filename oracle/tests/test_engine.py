"""Tests of the worksheet's half: worked examples and properties.

Run: python3 -m oracle.tests.test_engine, in the folder that holds oracle/. ORACLE_CHECK=1 also asserts that the dirty
formulas alone give the same."""
import sys
import traceback

from . import engine_laws, engine_second, engine_worked


def main():
    """Runs all tests; 1 where one fails."""
    failed = 0
    tests = {name: test for of in (engine_worked, engine_second, engine_laws) for name, test in vars(of).items()}
    for name, test in sorted(tests.items()):
        if name.startswith('test_'):
            try:
                test()
                print('ok   ', name)
            except AssertionError as e:
                traceback.print_exc()
                print('FAIL ', name, e)
                failed += 1
    print('failed' if failed else 'all pass')
    return failed


if __name__ == '__main__':
    sys.exit(main())
