"""Files that a model makes: written, or held against those that are stored."""

from pathlib import Path


def main(who, files, root, arguments):
    """Writes each name and content below the root, or the folder that is given; with --check in front it
    tells those that are stored otherwise. The exit status."""
    check = arguments[:1] == ["--check"]
    rest = arguments[1:] if check else arguments
    root = Path(rest[0]) if rest else root
    wrong = 0
    for name, content in files:
        path = root / name
        if not check:
            path.parent.mkdir(parents=True, exist_ok=True)
            path.write_bytes(content)
        elif not path.is_file() or path.read_bytes() != content:
            print(f"{who}: {name} is not what the model gives")
            wrong += 1
    print(f"{who}: {wrong} files differ" if check else f"{who}: written")
    return 1 if wrong else 0
