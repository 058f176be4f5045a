"""Systems of equations that benchmarks use, and what they time them with: Katsura's equations, the cyclic roots, random quadrics
and others of the usual test sets, all over Z/32003 in grevlex."""
import os
import random
import re
import subprocess
import tempfile
import time

MODULUS = 32003
LIMIT = 600


def katsura(n):
    """n + 1 unknowns u_0..u_n: their sum, and for m below n the sums of the products u_i u_j with i - j = m."""
    u = lambda i: f"u{abs(i)}" if abs(i) <= n else None
    product = lambda i, m: f"{u(i)}*{u(m - i)}"
    sums = ["+".join(u(i) for i in range(-n, n + 1)) + "-1"]
    for m in range(n):
        terms = [product(i, m) for i in range(-n, n + 1) if u(m - i)]
        sums.append("+".join(terms) + f"-{u(m)}")
    return [f"u{i}" for i in range(n + 1)], sums


def cyclic(n):
    names = [f"x{i}" for i in range(1, n + 1)]
    lists = [
        "+".join("*".join(names[(i + j) % n] for j in range(degree)) for i in range(n)) for degree in range(1, n)
    ]
    return names, lists + ["*".join(names) + "-1"]


def quadrics(n):
    draw = random.Random(6)
    names = [f"x{i}" for i in range(1, n + 1)]
    monomials = [f"{a}*{b}" for i, a in enumerate(names) for b in names[i:]] + names
    return names, ["+".join(f"{draw.randrange(1, MODULUS)}*{m}" for m in monomials) for _ in range(n)]


def economics(n):
    """Morgan's economics: n unknowns, the last one in each product."""
    names = [f"x{i}" for i in range(1, n + 1)]
    sums = [[names[k]] + [f"{names[i]}*{names[i + k + 1]}" for i in range(n - 2 - k)] for k in range(n - 1)]
    equations = [f"({'+'.join(it)})*{names[-1]}-{k}" for k, it in enumerate(sums, 1)]
    return names, equations + ["+".join(names[:-1]) + "+1"]


def noon(n):
    """Noonburg's neural network, times ten."""
    names = [f"x{i}" for i in range(1, n + 1)]
    squares = lambda x: "+".join(f"{y}^2" for y in names if y != x)
    return names, [f"10*{x}*({squares(x)})-11*{x}+10" for x in names]


def reimer(n):
    names = [f"x{i}" for i in range(1, n + 1)]
    signed = lambda power: "".join(f"{'-' if i % 2 else '+'}2*{x}^{power}" for i, x in enumerate(names))[1:]
    return names, [signed(power) + "-1" for power in range(2, n + 2)]


SYSTEMS = (
    [(f"katsura-{n}", katsura(n)) for n in (4, 5, 6)]
    + [(f"cyclic-{n}", cyclic(n)) for n in (4, 5, 6)]
    + [("6 quadrics", quadrics(6))]
)


LARGER = (
    [(f"katsura-{n}", katsura(n)) for n in (6, 7, 8, 9)]
    + [(f"cyclic-{n}", cyclic(n)) for n in (6, 7)]
    + [("8 quadrics", quadrics(8)), ("economics-9", economics(9)), ("reimer-5", reimer(5)), ("noon-6", noon(6))]
)


def generated(seed):
    """Names and quadrics of the script of `large SEED`, whose coefficients a linear congruential generator draws."""
    names, drawn, quadrics = list("abcdef"), seed, []
    for _ in names:
        terms = []
        for product in [f"{u}*{v}" for i, u in enumerate(names) for v in names[i:]]:
            drawn = (1103515245 * drawn + 12345) % 2147483648
            terms.append(f"{drawn // 65536 % MODULUS}*{product}")
        quadrics.append("+".join(terms))
    return names, quadrics


def script_of(names, generators):
    return f"ring {MODULUS} {','.join(names)} grevlex\nideal I = {', '.join(generators)}\nsize I\n"


def timed(words, script, folder=None):
    """Seconds by the clock and by the processor, peak memory in KiB, status and output of a program that reads the script."""
    with tempfile.TemporaryFile() as given, tempfile.TemporaryFile() as printed:
        given.write(script.encode())
        given.seek(0)
        begin = time.perf_counter()
        child = subprocess.Popen(words, stdin=given, stdout=printed, stderr=subprocess.DEVNULL, cwd=folder)
        _, status, usage = os.wait4(child.pid, 0)
        taken = time.perf_counter() - begin
        child.returncode = os.waitstatus_to_exitcode(status)
        printed.seek(0)
        return taken, usage.ru_utime + usage.ru_stime, usage.ru_maxrss, child.returncode, printed.read()


def run(words, script):
    """The same without the processor's seconds."""
    taken, _, peak, status, printed = timed(words, script)
    return taken, peak, status, printed


def best(words, script):
    """The fastest of three runs, or of one that takes long."""
    runs = [run(words, script)]
    while len(runs) < 3 and runs[0][0] < 20:
        runs.append(run(words, script))
    return min(runs)


def singular(command, names, generators):
    """Seconds of Singular's own timer for `std` or `liftstd`."""
    call = {"std": "ideal G = std(I);", "liftstd": "matrix T; ideal G = liftstd(I, T);"}[command]
    script = (
        f"ring r = {MODULUS},({','.join(names)}),dp;\nideal I = {','.join(generators)};\noption(redSB);\n"
        f"int t = rtimer; system(\"--ticks-per-sec\", 1000); t = rtimer; {call} rtimer - t; quit;\n"
    )
    done = subprocess.run(["timeout", str(LIMIT), "Singular", "-q"], input=script.encode(), stdout=subprocess.PIPE)
    lines = done.stdout.decode().split()
    return f"{int(lines[-1]) / 1000:.3f} s" if done.returncode == 0 and lines else "-"


def minors(columns):
    names = [f"{v}{i}" for v in "abc" for i in range(columns)]
    places = [(i, j) for i in range(columns) for j in range(i + 1, columns)]
    return names, [f"{v}{i}*{w}{j}-{v}{j}*{w}{i}" for v, w in ("ab", "ac", "bc") for i, j in places]


def leads(program, names, generators):
    """The leads of the reduced basis that the program computes."""
    _, _, status, printed = run(["timeout", str(LIMIT), program, "run"], script_of(names, generators).replace("size", "gb"))
    lines = printed.decode().split("\n")[1:-1] if status == 0 else []
    return names, [re.split(r"\+", line)[0] for line in lines]
