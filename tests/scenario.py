"""What the scenario tests of the programs share: how a scenario fails, and how all are run."""


class Fault(Exception):
    """What a scenario found to be wrong."""


def run_all(program, scenarios):
    """Runs each (name, test, arguments ..), tells of those that fail, and gives the exit status."""
    tried = failed = 0
    for name, test, *arguments in scenarios:
        tried += 1
        try:
            test(*arguments)
        except (Fault, OSError) as fault:
            failed += 1
            print(f"{program}: {name}: {fault}", flush=True)
    print(f"{program}: {tried} scenarios, {failed} failed")
    return 1 if failed else 0
