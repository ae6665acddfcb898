"""The texts of the programs that are measured."""

ADDER = (
    "sensor s := 0 line 0; actuator a := 0; output o := 0; task T(i) output o { o := i + 1; } "
    "mode m period 2 { actfreq 1 do a := o; taskfreq 1 do T(s); } start m;"
)


def adders(length):
    """A program of many tasks, of about `length` bytes."""
    head = "sensor s := 0 line 0; actuator a := 0; output o := 0; "
    tail = "mode m period 2 { actfreq 1 do a := o; taskfreq 1 do T0(s); } start m;"
    tasks, size = [], len(head) + len(tail)
    while size < length:
        task = "task T%d(i) output o { o := i + 1; } " % len(tasks)
        tasks.append(task)
        size += len(task)
    return head + "".join(tasks) + tail


def every_construct(length):
    """A program with every construct of the language, of about `length` bytes."""
    head = (
        "sensor s := -5 line 0; sensor g := 1 grant; actuator a := 0 line 3; actuator b := -9223372036854775808; "
        "output o := 0; output p := 7; "
    )
    tail = (
        "mode m period 12 { actfreq 2 if o != 0 do a := o / p; actfreq 1 do b := 7; exitfreq 3 if s == 4 do k { o := s; "
        "p := 1 + 2; }; exitfreq 1 do m; taskfreq 4 if (s <= g) || 0 do U0(s, -g); taskfreq 1 do U1(1, 2); } "
        "mode k period 1 { } start m;"
    )
    tasks, size = [], len(head) + len(tail)
    while size < length:
        task = (
            "task U%d(i, j) output o, p state n := 0, l := -1 { if (i < j) && (j >= 0) { o := (i * j) - 3; } "
            "else { repeat 3 { n := n + 1; } p := -(n %% 2); } if !l { } } " % len(tasks)
        )
        tasks.append(task)
        size += len(task)
    return head + "".join(tasks) + tail


def modes(parts):
    """A well-formed program with `parts` tasks and as many modes. With 60 of each it has about 15,800 bytes."""
    outputs = "".join("output o%d := 0; " % i for i in range(parts))
    tasks = "".join("task T%d(i) output o%d state n := 0 { n := n + i; if n > 7 { o%d := n; } else { repeat 2 { n := (n * 3) - (i + 1); } } } " % (i, i, i) for i in range(parts))
    modes = ""
    for i in range(parts):
        k = (i + 1) % parts
        modes += "mode m%d period 12 { actfreq 3 if o%d > 2 do a := o%d; exitfreq 2 if s > %d do m%d { o%d := s; }; taskfreq 6 do T%d(s + 1); } " % (i, i, i, i, k, k, i)
    return "sensor s := 0 line 0; actuator a := 0; " + outputs + tasks + modes + "start m0;"


MIXED = (
    "s := s + a; t := t - (s * 3); u := (s + t) * (a - b); v := u / 7; if u < v { o := o + 1; } else { o := o - 2; } "
    "p := -(p + (u % 13)); q := ((s == t) + (s != u)) + (t <= v); r := ((s > 0) && (t > 0)) || (!(q >= 2)); "
    "w := (w + u) - (s + 1); if r && p { x := x + q; y := y - x; } else { y := y + 1; } repeat 2 { z := z + x; } "
    "k := k + (((a * b) - d) * (q + 1)); n := x; t := t + (k * 2); o := ((o + p) + q) + r;"
)


def mixed_body(iterations):
    """A program whose task repeats every operation and every kind of statement `iterations` times."""
    return (
        "output o := 0; output p := 0; output q := 0; output r := 0; task T(a, b, c, d) output o, p, q, r state s := 0, "
        "t := 0, u := 0, v := 0, w := 0, x := 0, y := 0, z := 0, k := 7, n := 11 { repeat %d { %s } } "
        "mode m period 1 { taskfreq 1 do T(3, 5, 7, 11); } start m;" % (iterations, MIXED)
    )
