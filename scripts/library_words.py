"""library_words.py proved|unproved RTLIB CRATE: the words, one a line, with which the toolchain whose module is RTLIB builds the crate
in that folder: as a static library over libraries that are there, or, without any proof, as a program over the sources of all that it stands on.
Used by build_library."""
import importlib.machinery
import importlib.util
import sys


def main(way, tool, home):
    loader = importlib.machinery.SourceFileLoader("rtlib", tool)
    sys.modules["rtlib"] = rtlib = importlib.util.module_from_spec(importlib.util.spec_from_loader("rtlib", loader))
    loader.exec_module(rtlib)
    crate = next(it for it in rtlib.crates_below(home.rsplit("/", 2)[0]) if it.folder == home)
    crate.out = sys.stderr
    if way == "proved":
        words = crate.words(["--jobs", "1"], keeps=False)
    else:
        words = crate.sources_below() + rtlib.kit_sources(name for it in [crate, *crate.below()] for name in it.of_kit)
    print("\n".join(words))


main(*sys.argv[1:])
