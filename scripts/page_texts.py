"""Long traces for the rows and the bench of the page."""

HEAD = "".join(f"{p} 0 at X300.000 Z300.000\n{p} 0 home X300.000 Z300.000\n{p} 0 shift X0.000 Z100.000\n" for p in (1, 2))


def block(p, k):
    """One block of a path: a pass of four moves, a step nearer each time, with an arc in every fifth."""
    x, z = 60 + 40 * ((k // 5) % 50) / 50, 100 - (k % 37)
    lines = [f"rapid X{x + 2:.3f} Z{z + 2:.3f}", f"feed X{x:.3f} Z{z:.3f} F0.2 rev", f"feed X{x:.3f} Z{z - 20:.3f} F0.25 rev",
             f"cw X{x + 4:.3f} Z{z - 22:.3f} R2.000 F0.1 rev" if k % 5 == 0 else f"feed X{x + 4:.3f} Z{z - 22:.3f} F0.3 rev"]
    return "".join(f"{p} {10 + k % 9000} {line}\n" for line in lines)


def long_trace(moves):
    """A trace of so many moves, half of each path, with a meeting after each two hundred."""
    parts, met = ["trace 2\n", HEAD], 0
    for k in range(moves // 8):
        parts += [block(1, k), block(2, k + 3)]
        if k % 25 == 24:
            met += 1
            code, one, two = 100 + met % 90, 12 + k % 9000, 13 + k % 9000
            parts += [f"1 {one} wait M{code}\n2 {two} wait M{code}\n", f"met {met} M{code} path 1 line {one} path 2 line {two}\n"]
    parts.append(f"1 9990 end\n2 9991 end\nrecords {moves // 4 + 2 * met + 2}\nend done\nraces 0\n")
    return "".join(parts)
