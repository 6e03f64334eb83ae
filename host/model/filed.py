"""The files of a test program: what it reads, and what it is to write. Each model of cases ends here; with --check nothing is written, and it tells whether the
files are those."""
import pathlib
import sys

CRATES = pathlib.Path(__file__).resolve().parents[2] / "crates"


def on_disk(folder, names):
    paths = [*folder.glob("data/*"), *(folder / name for name in names if not name.startswith("data/"))]
    return {str(path.relative_to(folder)): path.read_bytes() for path in paths}


def keep(crate, files, told):
    """Writes these files of the crate, and leaves no others in its data/; with --check it tells that they stand there, or stops."""
    folder = CRATES / crate
    if sys.argv[1:] != ["--check"]:
        for stale in folder.glob("data/*"):
            stale.unlink()
        for name, data in files.items():
            (folder / name).parent.mkdir(exist_ok=True)
            (folder / name).write_bytes(data)
    elif on_disk(folder, files) != files:
        sys.exit(f"crates/{crate} has not the files that host/model/{pathlib.Path(sys.argv[0]).name} writes")
    else:
        print(told)


def keep_lines(crate, lines):
    """Of a program that reads nothing and prints lines."""
    text = "".join(line + "\n" for line in lines)
    keep(crate, {"stdout": text.encode()}, f"{crate}: {len(text.splitlines())} lines are those of the model")


def file(crate, cases, output, told):
    """Of a program that runs over data: the input of each case, the names of the cases as arguments, and what is written of them."""
    files = {f"data/{name}": data for name, _, data in cases}
    files["args"] = b"".join(name.encode() + b"\n" for name, _, _ in cases)
    files["stdout"] = b"".join(b"== %s\n%s" % (name.encode(), output(data)) for name, _, data in cases)
    keep(crate, files, told)
