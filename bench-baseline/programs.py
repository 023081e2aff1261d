"""The two benches: where they are, how they are built, how their listings are compared."""
import os
import subprocess

HERE = os.path.dirname(os.path.abspath(__file__))
TOP = os.path.dirname(HERE)
VERIFIED = os.path.join(TOP, "crates", "bench", "out", "bench")


def built_plain():
    """The plain program, built where it is older than its source."""
    source = os.path.join(HERE, "src")
    program = os.path.join(HERE, "out", "baseline")
    newest = max(os.path.getmtime(os.path.join(source, name)) for name in os.listdir(source))
    if not os.path.exists(program) or os.path.getmtime(program) < newest:
        os.makedirs(os.path.dirname(program), exist_ok=True)
        main = os.path.join(source, "main.rs")
        subprocess.run(["rustc", "-O", "--edition", "2021", "-o", program, main], check=True)
    return program


def built_verified():
    """The verified bench, built by play where it is not built, or its sources have changed since."""
    subprocess.run([os.path.join(TOP, "play"), "/dev/null"], check=True, stdout=subprocess.DEVNULL)
    return VERIFIED


def first_difference(expected, found):
    """Where two listings part, as words."""
    expected, found = expected.split(b"\n"), found.split(b"\n")
    for line, (wanted, got) in enumerate(zip(expected, found), 1):
        if wanted != got:
            return f"at line {line}: {wanted.decode()} in the plain listing, {got.decode(errors='replace')} in the other"
    return f"in length: {len(expected) - 1} lines in the plain listing, {len(found) - 1} in the other"
