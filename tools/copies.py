"""Copies of the crates, in which `rt` can work side by side: in one checkout a check keeps others out of all that its crate stands on."""
import os
import shutil

from programs import TOP

PARTS = ("HANDLES", "crates.txt", "crates")


def out_of(copy, crate):
    return os.path.join(copy, "crates", crate, "out")


def link_or_copy(source, target):
    """Gives a file a second name, or copies it to another file system. `rt` never writes into a file of a library."""
    try:
        os.link(source, target)
    except OSError:
        shutil.copyfile(source, target)


class Copies:
    """The checkout, and copies of its sources in a folder, as many as there may be checks at a time."""

    def __init__(self, folder, count, crates):
        self.all = [TOP, *(os.path.join(folder, str(number)) for number in range(1, count))]
        self.free = list(self.all)
        for copy in self.all[1:]:
            self.make(copy)
        for crate in crates:
            self.hand_out(crate, TOP)

    def make(self, copy):
        os.makedirs(copy)
        for part in PARTS:
            source, target = os.path.join(TOP, part), os.path.join(copy, part)
            if os.path.isdir(source):
                shutil.copytree(source, target, ignore=shutil.ignore_patterns("out"))
            elif os.path.exists(source):
                shutil.copyfile(source, target)

    def take(self):
        """One in which no check runs; the checkout itself, if that is free."""
        return self.free.pop(0)

    def give_back(self, copy):
        self.free.append(copy)
        self.free.sort(key=self.all.index)

    def hand_out(self, crate, source):
        """Gives the others the library of a crate that was built in one of them, and the checkout what its check kept."""
        library = os.path.join(out_of(source, crate), "rlib")
        for copy in self.all:
            if copy != source and os.path.isdir(library):
                target = os.path.join(out_of(copy, crate), "rlib")
                shutil.rmtree(target, ignore_errors=True)
                shutil.copytree(library, target, copy_function=link_or_copy)
        kept = os.path.join(out_of(source, crate), "incremental")
        if source != TOP and os.path.isdir(kept):
            target = os.path.join(out_of(TOP, crate), "incremental")
            shutil.rmtree(target, ignore_errors=True)
            shutil.move(kept, target)
