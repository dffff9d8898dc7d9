"""Keys of one hash, with and without a seed, for tests/program/packets."""
import resource
import subprocess

from packet_requests import SPAWN, Atom, T, call, check, request

# Pairs of texts of eight letters. In a binary of 104 bytes, one text of each pair in turn, each
# choice has the same FNV-1a hash.
CHOSEN = """
uuhmrnfuqpnlozhz tpdwcvknoodyfjzf gxodmowvqsfwcydz xecyeysipyqiokws pwtogysreecsgpjx
qihecjlyjxhdtipb nfsunqbefdoewtpw kaobjlkqhujjsdaj iuodncbejtythbuy rliireyehxcpctub
cgjqrollxotrwyyb hnnhvgvixkosfpzw qpvjznhatkwkrxda
"""


def seconds(program, given, *options):
    """Returns the seconds of CPU of a run that answers all requests."""
    before = resource.getrusage(resource.RUSAGE_CHILDREN)
    ran = subprocess.run(
        [program, *options],
        input=given,
        stdout=subprocess.PIPE,
        stderr=subprocess.PIPE,
        timeout=60,
    )
    after = resource.getrusage(resource.RUSAGE_CHILDREN)
    check(f"status with {options}", (ran.returncode, ran.stderr), (0, b""))
    return after.ru_utime + after.ru_stime - before.ru_utime - before.ru_stime


def try_seeds(program):
    """Keys that were chosen to have one FNV-1a hash slow only tables without a seed."""
    pairs = [(pair[:8], pair[8:]) for pair in CHOSEN.split()]
    chosen = [
        "".join(pair[key >> at & 1] for at, pair in enumerate(pairs))
        for key in range(1 << len(pairs))
    ]
    ordinary = [f"{key:0{8 * len(pairs)}}" for key in range(len(chosen))]
    start = request(SPAWN, 0) + call(0, "new", T, [Atom("named_table")])
    given = lambda keys: start + b"".join(call(0, "insert", T, (key.encode(), 1)) for key in keys)
    usual = seconds(program, given(ordinary), "--external")
    for options in ((), ("--seed=7",)):
        check(
            f"chosen keys are as fast as others with {options}",
            seconds(program, given(chosen), "--external", *options) < 4 * usual,
            True,
        )
    script = lambda keys: b"spawn p\np new(t,[named_table])\n" + b"".join(
        b'p insert(t,{<<"%s">>,1})\n' % key.encode() for key in keys
    )
    usual = seconds(program, script(ordinary))
    check(
        "chosen keys are slow in a script without a seed",
        seconds(program, script(chosen)) > 4 * usual,
        True,
    )
    for options in (("--seed=7",), ("--seed=4294967295", "--threads")):
        check(
            f"chosen keys are as fast as others with {options}",
            seconds(program, script(chosen), *options) < 4 * usual,
            True,
        )
