"""Compares daacgrep with grep -F: python3 lines_by_grep.py DAACGREP [CASES [SEED]].

Makes random patterns and files, runs both in the C locale with the same options, and says where
output or status differ."""
import os
import random
import subprocess
import sys
import tempfile

OPTIONS = ["-n", "-b", "-c", "-l", "-q", "-i", "-v", "-H", "-h", "-o"]


def text(rng, letters, most):
    return "".join(rng.choice(letters) for _ in range(rng.randrange(most)))


def case(rng, folder):
    letters = rng.choice(["ab", "abAB", "abc xyz", "aAbBcC.*"])
    lines = [text(rng, letters, 4) for _ in range(rng.randrange(1, 6))]
    end = rng.choice(["", "\n"])
    with open(f"{folder}/patterns", "w") as file:
        file.write("\n".join(line or "a" for line in lines) + end)
    names = []
    for number in range(rng.randrange(1, 4)):
        name = f"{folder}/file{number}"
        names.append(name)
        with open(name, "w") as file:
            file.write(text(rng, letters + "\n", 60))
    if rng.randrange(8) == 0:
        names.insert(rng.randrange(len(names) + 1), f"{folder}/missing")
    options = [option for option in OPTIONS if rng.randrange(3) == 0]
    if "-h" in options and "-H" in options:
        options.remove("-H")
    return options + ["-f", f"{folder}/patterns"] + names


def ran(program, words):
    env = dict(os.environ, LC_ALL="C")
    done = subprocess.run(program + words, capture_output=True, env=env, stdin=subprocess.DEVNULL)
    return done.stdout, done.returncode


def main():
    program = sys.argv[1]
    cases = int(sys.argv[2]) if len(sys.argv) > 2 else 1000
    rng = random.Random(int(sys.argv[3]) if len(sys.argv) > 3 else 1)
    differ = 0
    with tempfile.TemporaryDirectory() as folder:
        for _ in range(cases):
            words = case(rng, folder)
            ours, theirs = ran([program], words), ran(["grep", "-F"], words)
            if ours != theirs:
                differ += 1
                print(words, open(f"{folder}/patterns").read().encode(), ours, theirs, sep="\n  ")
    print(f"{cases} cases, {differ} differ")
    return 1 if differ else 0


if __name__ == "__main__":
    sys.exit(main())
