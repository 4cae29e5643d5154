"""bench/report.py PROGRAM ..: times PROGRAM on months of jobs; bench/report.sh says how."""
import random
import subprocess
import sys
import tempfile
import time


def jobs(count):
    """The lines of so many jobs of 62 assets."""
    rng = random.Random(62)
    pool = ["ASSET%03d" % i for i in range(250)]
    lines = []
    for _ in range(count):
        held = rng.sample(pool, 62)
        cuts = sorted(rng.randrange(1_000_001) for _ in range(61))
        amounts = [b - a for a, b in zip([0] + cuts, cuts + [1_000_000])]
        lines += ["%s\t%016x\t%d" % (name, rng.getrandbits(64), m) for name, m in zip(held, amounts)]
        rng.shuffle(held)
        lines.append("order\t" + "\t".join(held))
    return "".join(line + "\n" for line in lines).encode()


def main(program):
    for count in (0, 25, 50, 100, 200):
        text = jobs(count)
        with tempfile.TemporaryFile() as f:
            f.write(text)
            times = []
            for _ in range(21):
                f.seek(0)
                begun = time.perf_counter()
                page = subprocess.run(program, stdin=f, stdout=subprocess.PIPE, check=True).stdout
                times.append(time.perf_counter() - begun)
                if not page.startswith(b"jobs\t%d\t0\n" % count):
                    print("report %d is not answered as it should be" % count)
                    return 1
        times.sort()
        print("report %d %d %.1f %.1f" % (count, len(text), times[0] * 1e3, times[10] * 1e3))
    return 0


if __name__ == "__main__":
    sys.exit(main(sys.argv[1:]))
