#!/usr/bin/env python3
"""Measures single parts of the proxies with the small proved program part_speed: commits of a surface with ten
rectangles of damage each, one commit with thousands that lie about in no order, tables of the other side's handles, in
order and picked for their hash, loads, writes and copies of live words and fills of a mirror beside plain copies of as many words,
copies of live words by several threads and by crews, pieces that go through a pipe, frames that a ring keeps and frames that
counts judge; with half_trials the two halves; then two proxies back to back, and lines in memory. It is no part of the gate."""
import functools

import figures
import lines
import proxies

seconds = functools.partial(figures.job_seconds, "part_speed")
half_seconds = functools.partial(figures.job_seconds, "half_trials")


def table_seconds(folder, count, bits, rounds=20):
    """The time of one table of so many rids, whose hashes have so many zeros at their end."""
    chosen, taken = (seconds(folder, "rids", count, bits, times) for times in (0, rounds))
    return (taken - chosen) / rounds


def main():
    for crate in ("part_speed", "half_trials"):
        figures.build(crate)
    with figures.folder() as folder:
        times = 20_000
        hd = seconds(folder, "commits", 1920, 1080, times)
        uhd = seconds(folder, "commits", 3840, 2160, times)
        print(f"commits of 1920 by 1080 pixels: {times / hd:10.0f} per second")
        print(f"commits of 3840 by 2160 pixels: {times / uhd:10.0f} per second, {uhd / hd:.2f} times the time")
        for across, down in ((64, 64), (2, 2160), (2, 1080), (600, 400), (3840, 2160)):
            once, twice = (seconds(folder, "scatter", 3840, 2160, across, down, count) for count in (2000, 4000))
            print(f"2000 rectangles of {across:4} by {down:4} pixels: {once * 1e3:5.1f} ms, twice as many {twice / once:.2f} times the time")
        for count in (73_728, 147_456):
            plain, picked = (table_seconds(folder, count, bits) for bits in (0, 10))
            print(f"{count} rids: {plain * 1e3:5.1f} ms in order, {picked * 1e3:5.1f} ms where they are picked for their hash")
        for words in (1024, 65_536, 1_048_576):
            rounds = 1_000_000_000 // words
            loads, copies = seconds(folder, "loads", words, rounds), seconds(folder, "copies", words, rounds)
            print(f"{words:8} words: {words * rounds / loads / 1e6:6.0f} million loads per second, {loads / copies:.1f} times a plain copy's time")
            rounds = 100_000_000 // words
            writes = seconds(folder, "writes", words, rounds)
            print(f"{words:8} words: {words * rounds / writes / 1e6:6.0f} million writes per second")
        copies_by_jobs(folder)
        copies_by_crews(folder)
        files_and_pipes(folder)
        frames_of_the_link(folder)
        halves(folder)
    proxies.main()
    lines.main()


def copies_by_jobs(folder):
    """Words that are copied by jobs, each behind a write and a note, and a plain loop of atomic loads over as many."""
    for words in (512, 65_536, 131_072):
        rounds = 500_000_000 // words
        jobs, loads = seconds(folder, "one", words, rounds), seconds(folder, "atomics", words, rounds)
        print(f"{words:8} words: {words * rounds / jobs / 1e6:6.0f} million words copied per second, {loads / jobs:.2f} of a plain loop's speed")


def copies_by_crews(folder):
    """Words that are copied by one thread, by several that come back in order, and by crews, beside plain copies. The
    several are started anew for every sixteen jobs, so that these are few where jobs are small."""
    for words in (8, 512, 131_072):
        rounds = min(500_000_000 // words, 2_000_000) // 16 * 16
        plain = seconds(folder, "copies", words, rounds) / rounds
        for way in ("one", "all", "crew-1", "crew-2", "crew-4"):
            times = min(rounds, 16_000) if way == "all" else rounds
            taken = seconds(folder, way, words, times) / times
            print(f"{words * 8:8} bytes: {words / taken / 1e6:6.0f} million words per second by {way:6}, {taken / plain:6.1f} times a plain copy's time")


def files_and_pipes(folder):
    """Fills of a whole mirror, and pieces from the peer that writes them to the one that reads them."""
    for size in (4096, 1_048_512):
        rounds = 5_000_000_000 // size
        fills, copies = seconds(folder, "fills", size, rounds), seconds(folder, "copies", size // 8, rounds)
        print(f"{size:8} bytes: {size * rounds / fills / 1e9:6.1f} GB filled per second, {fills / copies:.2f} times a plain copy's time")
    for size in (64, 4096, 65_536):
        rounds = 2_000_000_000 // (size + 1000)
        print(f"{size:8} bytes: {rounds / seconds(folder, 'pieces', size, rounds) / 1e6:8.3f} million pieces through a pipe per second")


def frames_of_the_link(folder):
    """Frames that are copied, kept, read in the ring and acknowledged, and frames that are judged, each with an ACK
    behind it."""
    for size, times in ((80, 10_000_000), (1_048_576, 10_000)):
        kept = seconds(folder, "kept", size, times)
        print(f"{size:8} bytes: {times / kept:10.0f} frames kept per second, {size * times / kept / 1e9:5.2f} GB per second")
    frames, times = 10_000, 10_000
    print(f"{frames * times / seconds(folder, 'judged', frames, times) / 1e6:.0f} million frames judged per second")


def halves(folder):
    """Small messages and whole images that become frames, each with its copy and its notes, and frames of whole images
    that become what a peer is given, beside plain copies of as many bytes. The frames are made anew each time, which is
    not counted."""
    count, times = 1000, 1000
    sent = half_seconds(folder, "messages", count, times)
    print(f"      24 bytes: {count * times / sent / 1e6:6.2f} million messages per second become frames")
    size, rounds = 640 * 480 * 4, 1000
    plain = seconds(folder, "copies", size // 8, rounds)
    made = half_seconds(folder, "pictures", 1, rounds)
    print(f"{size:8} bytes: {size * rounds / made / 1e9:6.2f} GB of images per second become frames, {made / plain:.2f} times a plain copy's time")
    with figures.kept_memory():
        made = half_seconds(folder, "pictures", 1, rounds)
    print(f"{size:8} bytes: the same where the allocator keeps freed memory, {made / plain:.2f} times a plain copy's time")
    given = half_seconds(folder, "images", size, rounds) - half_seconds(folder, "untaken", size, rounds)
    print(f"{size:8} bytes: {size * rounds / given / 1e9:6.2f} GB of images per second are given, {given / plain:.2f} times a plain copy's time")


if __name__ == "__main__":
    main()
