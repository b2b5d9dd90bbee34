"""Model files with faults, and judgments of which several parts are refused."""
from itertools import product

from known import ANY, POOL, bytes_of, counted
from known_equations import PLACES
from known_models import MEETING, PAPER
from models import MOST_STEPS, SILENT, file_of, record

# Numbers at the edges of what the bytes of a model can mean.
EDGES = [0, 1, 2, 3, 15, 16, 17, 18, 19, 63, 64, 65, 128, 255]

# A file of six steps, of both kinds.
MIXED = file_of(5, [(0, 37, 4), (4, SILENT, 3), (3, 255, 3), (3, SILENT, 0), (1, 0, 2), (2, SILENT, 1)])

# Files of as many steps as there may be, and of one less: silent ones, ones with codes, and both by turns.
SILENT_STEPS = [(0, SILENT, 1), (1, SILENT, 0)] * 256
CODE_STEPS = [(0, 38, 1), (1, 128, 0)] * 256
BOTH_STEPS = [(0, 38, 1), (1, SILENT, 0)] * 256

# The files of the refused rules, by number; 4 stands for a 65th node. None is about the table.
REFUSED_RULES = ["", "0", "2 2", ANY + "5 0 " * 64 + "2", "1 1 6 32 2", "7 0", "6 7 0", "3", counted(10)]


def head_files():
    """The first record: kinds, every count, and steps to the last state and to the next number."""
    files = [b""] + [bytes([kind]) for kind in EDGES] + [bytes([16, count]) for count in range(256)]
    files += [bytes([kind, count]) for kind, count in product((0, 15, 17, 18), (0, 1, 64, 65))]
    for count in (1, 2, 3, 7, 31, 32, 33, 62, 63, 64):
        for step in ((0, 5, count - 1), (0, 5, count), (count, 5, 0), (0, SILENT, count), (count, SILENT, 0)):
            files.append(file_of(count, [(0, 37, 0), step]))
    return files


def cut_files():
    """Files cut at every place, and long ones cut at the places around their last steps."""
    files = []
    for whole in (bytes_of(PAPER), MIXED):
        files += [whole[:length] for length in range(len(whole))]
    for steps in (SILENT_STEPS, CODE_STEPS, BOTH_STEPS):
        whole = file_of(2, steps + steps[:2])
        files += [whole[:length] for length in range(len(whole) - 13, len(whole) + 1)]
    return files


def changed_files():
    """Files with each of their bytes changed, and with a byte more at each place."""
    files = []
    for whole in (bytes_of(PAPER), MIXED):
        for at, byte in product(range(len(whole)), EDGES):
            files.append(whole[:at] + bytes([byte]) + whole[at + 1 :])
        files += [whole[:at] + bytes([byte]) + whole[at:] for at in range(len(whole) + 1) for byte in (0, 17, 18, 19)]
    return files


def pair_files():
    """Every two of a few records, most of them faulty, behind the beginnings that the checks tell apart."""
    bad = [record(2, 38, 0), record(0, 38, 2), record(2, SILENT, 0), record(0, SILENT, 2)]
    cut = [bytes([17]), bytes([17, 2]), bytes([17, 0, 38]), bytes([18]), bytes([18, 2])]
    records = [b"", record(0, 38, 1), record(1, SILENT, 0), bytes([16, 2]), bytes([19, 2, 2, 2])] + bad + cut
    files = [file_of(2, CODE_STEPS[:count]) + a + b for count in (0, 1) for a, b in product(records, repeat=2)]
    few = [record(0, 38, 1), record(0, SILENT, 1), bytes([19, 0, 0]), bad[1], bad[3], cut[1], cut[4]]
    for count in (MOST_STEPS - 1, MOST_STEPS):
        files += [file_of(2, SILENT_STEPS[:count]) + a + b for a, b in product(few, few + [b""])]
    return files


def early_fault_files():
    """Files with too many steps, one of which has another fault, at the first, near the last, and in between."""
    files = []
    for at in (0, 1, 255, 510, 511, 512):
        for fault in (record(2, 38, 0), record(0, SILENT, 2), bytes([19, 0, 0, 0]), bytes([0])):
            steps = [record(*step) for step in BOTH_STEPS + BOTH_STEPS[:1]]
            steps[at] = fault
            files.append(bytes([16, 2]) + b"".join(steps))
    return files


def noise_files(random):
    """Bytes at random, most of them such as models have, and files that go on for long after what settles them."""
    files = [bytes([16, 3]) + bytes(random.choice([17, 18, 0, 1, 2]) for _ in range(n % 40)) for n in range(120)]
    files += [bytes(random.choice(EDGES) for _ in range(random.randrange(1, 20))) for _ in range(60)]
    endings = [bytes(3000), bytes([17]) * 6000, random.randbytes(5000)]
    return files + [head + end for head in (b"", bytes([16, 3]), file_of(2, CODE_STEPS)) for end in endings]


def files(random):
    every = head_files() + cut_files() + changed_files() + pair_files() + early_fault_files() + noise_files(random)
    return list(dict.fromkeys(every))


def grid():
    """Table sizes, rules and models of which none, one, two or all three are refused. Of the rules that aren't, the rows just
    fit 256 entries, 768, 1,024 and 32,768; the short rows of the last two, 768 and 256."""
    sized = list(product((0, 255, 256, 767, 768, 769, 1023, 1024, 32767, 32768, 40000), ["2", POOL, PLACES, counted(7)]))
    refused = product((0, 255, 767, 32767, 32768, 40000), REFUSED_RULES)
    models = [bytes_of(text) for text in (MEETING, PAPER, "", "16", "19", "16 65", "16 1 19", "16 1 17 0 9 1")]
    long = [file_of(2, CODE_STEPS + CODE_STEPS[:1]), file_of(2, CODE_STEPS)[:-1]]
    pairs = [*product(sized, models + long), *product(refused, models)]
    return [(size, bytes_of(rule), model) for (size, rule), model in pairs]


def spoiled(random, model):
    """A model file that isn't refused with a fault at its end."""
    count = model[1]
    faults = [bytes([17]), bytes([18, 0]), bytes([17, 0, 5]), bytes([19])]
    return model + random.choice(faults + [record(0, 5, count), record(count, SILENT, 0)])
