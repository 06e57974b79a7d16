"""Has the kit build the static library lx_live, and keeps the LLVM module that it makes on the way.

    module.py KIT CRATE MODULE.bc

The kit hands that module to the clang of the toolchain folder that it is given. Here that folder is one of links, with a
clang that copies the module before it calls the kit's own. The crate is proved again first, over the libraries below it
that stand in their out/.
"""
import importlib
import pathlib
import subprocess
import sys
import tempfile

CLANG = """#!/bin/sh
for word; do
    case $word in *.bc) cp "$word" "{module}" ;; esac
done
exec "{clang}" "$@"
"""


def toolchain_that_keeps(module: pathlib.Path, toolchain: pathlib.Path, to: pathlib.Path) -> None:
    """Makes a toolchain folder of links, whose clang copies the module that it is given."""
    (to / 'bin').mkdir(parents=True)
    (to / 'lib').symlink_to(toolchain / 'lib')
    for tool in (toolchain / 'bin').iterdir():
        if tool.name != 'clang':
            (to / 'bin' / tool.name).symlink_to(tool)
    clang = to / 'bin' / 'clang'
    clang.write_text(CLANG.format(module=module, clang=toolchain / 'bin/clang'))
    clang.chmod(0o755)


def main() -> None:
    kit, crate, module = (pathlib.Path(word).resolve() for word in sys.argv[1:])
    sys.path.insert(0, str(kit / 'bin'))
    rtlib = importlib.import_module('rtlib')  # the kit's own: it knows the words that a crate is built with
    words = rtlib.Crate(str(crate), str(crate.parents[1]), {}).words(['--jobs', '2'], keeps=False)
    with tempfile.TemporaryDirectory() as folder:
        toolchain = pathlib.Path(folder) / 'toolchain'
        toolchain_that_keeps(module, kit / 'toolchain', toolchain)
        library = pathlib.Path(folder) / 'library.a'
        subprocess.run([rtlib.RATTLE, 'build', *words, '--toolchain', str(toolchain), '-o', str(library)],
                       cwd=crate, check=True, stdin=subprocess.DEVNULL)


if __name__ == '__main__':
    main()
