"""The load generator of bench/load and bench/load_durable: how it is built, and one run of it."""
import os
import subprocess

CLOCK = os.sysconf("SC_CLK_TCK")


def compiled(folder, source, name):
    target = f"{folder}/{name}"
    subprocess.run(["cc", "-O2", f"-I{os.path.dirname(source)}", "-o", target, source, "-lqpid-proton", "-lpthread"], check=True)
    return target


def cpu_seconds(pid):
    with open(f"/proc/{pid}/stat", encoding="utf-8") as file:
        fields = file.read().rsplit(")", 1)[1].split()
    return (int(fields[11]) + int(fields[12])) / CLOCK


def turn(bench, port, pid, load, seconds):
    """One run: messages a second, the middle and the 99th latency, and the server's microseconds of processor for each message."""
    mode, size, pairs, window = load
    before = cpu_seconds(pid)
    words = [bench, "-a", f"127.0.0.1:{port}", "-m", mode, "-s", str(size), "-p", str(pairs), "-w", str(window), "-t", str(seconds)]
    done = subprocess.run(words, capture_output=True, text=True, timeout=seconds + 60)
    fields = done.stdout.split()
    if done.returncode or len(fields) < 11 or fields[10] != "0":
        raise SystemExit(f"{' '.join(words)}: {done.stdout}{done.stderr}")
    return float(fields[4]), int(fields[5]), int(fields[6]), 1e6 * (cpu_seconds(pid) - before) / max(1, int(fields[9]))
