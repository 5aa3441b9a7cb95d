"""Prints a job whose table is more than a pipe holds: the parity of 12 switches, named by each of 32 outputs."""
lines = ["(one b)"]
odd, even, last = 0, 1, 2
for switch in range(11, -1, -1):
    lines.append(f"(node {last} {switch} ({odd} {even}) b)")
    lines.append(f"(node {last + 1} {switch} ({even} {odd}) b)")
    odd, even, last = last, last + 1, last + 2
for output in range(32):
    lines.append(f"(out {output} {odd})")
print("\n".join([f"(job 12 {last - 2} 32)", *lines, "(end)"]))
