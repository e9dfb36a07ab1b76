"""What random_sheets.py and random_classes.py share: the files of a generator, short ones of them cut and changed, and two programs on
each."""
import concurrent.futures
import os
import subprocess
import tempfile

SHORT = 120
AT_ONCE = 2


def printed(program, file):
    return subprocess.run([program], input=file, stdout=subprocess.PIPE, check=True).stdout


def drawn(generator, seed, count, more):
    """The generator's files, in order, where it was told these words too."""
    files = []
    with tempfile.TemporaryDirectory() as folder:
        subprocess.run([generator, seed, str(count), folder, *more], check=True, stdout=subprocess.DEVNULL)
        for name in sorted(os.listdir(folder)):
            with open(os.path.join(folder, name), 'rb') as file:
                files.append((' '.join([name, *more]), file.read()))
    return files


def varied(name, file):
    """A short file cut at every length, and with every byte changed."""
    for end in range(len(file)):
        yield '%s cut at %d' % (name, end), file[:end]
    for place in range(len(file)):
        changed = bytearray(file)
        changed[place] ^= 1 << place % 8
        yield '%s byte %d changed' % (name, place), bytes(changed)


def cases(files, few):
    """All files that were drawn, and what is made of a few short ones."""
    yield from files
    short = [case for case in files if 60 <= len(case[1]) <= SHORT][:few]
    assert len(short) == few, 'too few short files were drawn'
    for case in short:
        yield from varied(*case)


def compared(program, second, generator, seed, few, kinds):
    """Prints each file on which the two programs differ, and `N passed, M failed`; the exit status. A kind of files is how many are
    drawn, and the words that the generator is told too."""
    passed, failed = 0, 0

    def agrees(case):
        return case[0], printed(program, case[1]) == printed(second, case[1])

    with concurrent.futures.ThreadPoolExecutor(AT_ONCE) as pool:
        for files in list(pool.map(lambda kind: drawn(generator, seed, *kind), kinds)):
            for name, same in pool.map(agrees, cases(files, few)):
                passed, failed = passed + same, failed + (not same)
                if not same:
                    print('%s: the two programs print other lines' % name)
    print('%d passed, %d failed' % (passed, failed))
    return 1 if failed or passed < sum(count for count, _ in kinds) else 0
