"""Lists the semigroups of a genus, or those with a multiplicity from LOWEST to HIGHEST, in the file OUTPUT, and keeps the walk as a job in the
file JOB: the listing may be killed at any time and taken up by another process.  Usage: list.py LIBRARY JOB OUTPUT GENUS [LOWEST HIGHEST]
begins a listing, and list.py LIBRARY JOB OUTPUT takes up the one that is kept"""
import ctypes
import os
import sys

u64 = ctypes.c_uint64
u8 = ctypes.c_uint8
size = ctypes.c_size_t

BATCH = 16
"""The words in a batch; after each a new job is kept."""

LONGEST = 21
"""The bytes of the longest job."""


class Number(ctypes.Structure):
    _fields_ = [("refused", u64), ("value", u64)]


class Report(ctypes.Structure):
    _fields_ = [("refused", u64), ("genus", u64), ("multiplicity", u64), ("conductor", u64), ("largest_gap", ctypes.c_int64)]


class Walk(ctypes.Structure):
    _fields_ = [("genus", u64), ("word", u64), ("lowest", u8), ("highest", u8), ("finished", u8)]


class Begun(ctypes.Structure):
    _fields_ = [("refused", u64), ("walk", Walk)]


class Moved(ctypes.Structure):
    _fields_ = [("refused", u64), ("walk", Walk), ("count", size), ("finished", ctypes.c_bool)]


class Saved(ctypes.Structure):
    _fields_ = [("refused", u64), ("walk", Walk), ("written", u64)]


def opened(path):
    atlas = ctypes.CDLL(path)
    for name, result, arguments in [
        ("atlas_fresh_in", Begun, [u64, u8, u8]),
        ("atlas_count", Number, [u64, u64]),
        ("atlas_look", Report, [u64]),
        ("atlas_batch", Moved, [Walk, ctypes.POINTER(u64), size]),
        ("atlas_job_write", Number, [Walk, u64, ctypes.POINTER(u8), size]),
        ("atlas_job_read", Saved, [ctypes.POINTER(u8), size]),
    ]:
        call = getattr(atlas, name)
        call.restype, call.argtypes = result, arguments
    return atlas


def keep(atlas, job, walk, written):
    """Keeps the job of a walk. It is written to JOB.new, which then replaces JOB: so JOB is always a whole job."""
    out = (u8 * LONGEST)()
    length = atlas.atlas_job_write(walk, written, out, LONGEST).value
    with open(job + ".new", "wb") as file:
        file.write(bytes(out[:length]))
    os.replace(job + ".new", job)


def kept(atlas, job):
    """What the kept job says."""
    with open(job, "rb") as file:
        given = file.read()
    return atlas.atlas_job_read((u8 * len(given))(*given), len(given))


def cut(output, written):
    """Cuts the output to its header and as many lines as were written by the job."""
    with open(output, "rb+") as file:
        for _ in range(written + 1):
            if not file.readline().endswith(b"\n"):
                sys.exit("list.py: the output has fewer lines than were written by the job")
        file.truncate(file.tell())


def go_on(atlas, job, file, walk, written):
    """Goes on with a listing to its end. A batch is in the output before the job counts it: after a kill the output has every line that the
    job counts, and perhaps more."""
    while not walk.finished:
        words = (u64 * BATCH)()
        moved = atlas.atlas_batch(walk, words, BATCH)
        for word in words[: moved.count]:
            report = atlas.atlas_look(word)
            print(word, report.conductor, report.multiplicity, file=file)
        file.flush()
        walk = moved.walk
        written += moved.count
        keep(atlas, job, walk, written)


def begin(atlas, job, output, genus, lowest=1, highest=33):
    """Begins a listing. An older job is removed first, as it does not belong to the new output."""
    if os.path.exists(job):
        os.remove(job)
    with open(output, "w", newline="\n") as file:
        begun = atlas.atlas_fresh_in(genus, min(lowest, 255), min(highest, 255))
        if begun.refused:
            print("refused", begun.refused, file=file)
            return 1
        print("genus", genus, "count", atlas.atlas_count(0, genus).value, file=file, flush=True)
        keep(atlas, job, begun.walk, 0)
        go_on(atlas, job, file, begun.walk, 0)
    return 0


def take_up(atlas, job, output):
    """Takes up the kept job. Where it is refused, the output stays as it is."""
    saved = kept(atlas, job)
    if saved.refused:
        print("refused", saved.refused)
        return 1
    cut(output, saved.written)
    with open(output, "a", newline="\n") as file:
        go_on(atlas, job, file, saved.walk, saved.written)
    return 0


def main(library, job, output, *asked):
    atlas = opened(library)
    return begin(atlas, job, output, *map(int, asked)) if asked else take_up(atlas, job, output)


sys.exit(main(*sys.argv[1:]))
