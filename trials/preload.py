"""What the trials share that load a library before the C library."""
import subprocess


def made(room, name, text):
    """Makes a library of a C text in a folder, and returns its path."""
    with open(f"{room}/{name}.c", "w", encoding="utf-8") as it:
        it.write(text)
    subprocess.run(["cc", "-shared", "-fPIC", "-O2", "-o", f"{room}/{name}.so", f"{room}/{name}.c", "-ldl"], check=True)
    return f"{room}/{name}.so"
