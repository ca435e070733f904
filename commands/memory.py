"""What the C library is asked for, where it is glibc: memory in large pages, which spares page faults on long documents;
and that freed memory is kept for what is taken next, so that the buffers which workers take for a stage aren't made
anew, and cleared by the system, for each."""

_KEPT = {
    "glibc.malloc.hugetlb": 1,
    "glibc.malloc.mmap_threshold": 32 << 20,
    "glibc.malloc.trim_threshold": 1 << 30,
}


def tunables(given):
    """The value of GLIBC_TUNABLES that asks for it, behind what is given already."""
    asked = [f"{name}={value}" for name, value in _KEPT.items()]
    return ":".join([given, *asked] if given else asked)
