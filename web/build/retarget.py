"""Makes lexical.wasm of the LLVM module that the kit made of the proved crate lx_live for x86-64.

    retarget.py KIT MODULE.bc OUT.wasm

The kit's own way to WebAssembly refuses calls of the heap. So the module for x86-64 gets another target: its triple and
data layout, no attributes of a processor, and one intrinsic of x86 spelled in scalars. clang, llvm-ar and rattle-link are
the kit's. Its addresses have 64 bits, which few engines know, so Binaryen's wasm-opt lowers them to 32 bits and optimizes
once more.
"""
import pathlib
import re
import subprocess
import sys
import tempfile

HERE = pathlib.Path(__file__).resolve().parent
STACK_BYTES = 1 << 20
LAYOUT = 'e-m:e-p:64:64-p10:8:8-p20:8:8-i64:64-i128:128-n32:64-S128-ni:1:10:20'
TARGET = ['--target=wasm64-unknown-unknown', '-mcpu=lime1', '--no-default-config', '-no-canonical-prefixes',
          '-fno-crash-diagnostics', '-Werror', '-O3']
# What the kit itself tells its clang for WebAssembly.
LOWERING = ('expand-div-rem-bits=64', 'expand-fp-convert-bits=64', 'trap-unreachable', 'no-x86-call-frame-opt',
            'disable-machine-licm', 'disable-postra-machine-licm', 'sink-common-insts=false')
AS_THE_KIT = ['-ffunction-sections', '-fdata-sections', '-fintegrated-cc1',
              *(word for flag in LOWERING for word in ('-mllvm', '-' + flag))]
AS_TEXT = ['--target=x86_64-unknown-linux-gnu', '-O0', '-Xclang', '-disable-llvm-passes', '-S', '-emit-llvm',
           '-x', 'ir']
OF_C = ['-ffreestanding', '-fno-builtin', '-nostdinc', '-Wall']
FEATURES = ['--enable-' + it for it in ('bulk-memory', 'sign-ext', 'nontrapping-float-to-int', 'multivalue',
                                        'mutable-globals')]
X86_SHUFFLE = '@llvm.x86.ssse3.pshuf.b.128('
# Sections of a WebAssembly module, by their numbers.
CUSTOM, TABLE, ELEMENT = 0, 4, 9


def shuffle_in_scalars() -> str:
    """The shuffle of x86, a byte at a time.

    Byte i is that of %a at the low four bits of byte i of %at, or 0 where the top bit of that is set.
    """
    lines = ['  %from = alloca [16 x i8], align 16', '  store <16 x i8> %a, ptr %from, align 16']
    result = 'zeroinitializer'
    for i in range(16):
        lines += [f'  %i{i} = extractelement <16 x i8> %at, i32 {i}',
                  f'  %n{i} = and i8 %i{i}, 15',
                  f'  %w{i} = zext i8 %n{i} to i64',
                  f'  %p{i} = getelementptr i8, ptr %from, i64 %w{i}',
                  f'  %l{i} = load i8, ptr %p{i}',
                  f'  %h{i} = icmp slt i8 %i{i}, 0',
                  f'  %v{i} = select i1 %h{i}, i8 0, i8 %l{i}',
                  f'  %r{i} = insertelement <16 x i8> {result}, i8 %v{i}, i32 {i}']
        result = f'%r{i}'
    head = 'define internal <16 x i8> @shuffle_bytes(<16 x i8> %a, <16 x i8> %at) noinline nounwind {'
    return '\n'.join(['', head, *lines, f'  ret <16 x i8> {result}', '}', ''])


def retargeted(text: str) -> str:
    """The text of the module for its new target. Its exported functions get names under which exports.c calls them."""
    text = re.sub(r'(?m)^target datalayout = .*', f'target datalayout = "{LAYOUT}"', text, count=1)
    text = re.sub(r'(?m)^target triple = .*', 'target triple = "wasm64-unknown-unknown"', text, count=1)
    text = re.sub(r' "(?:probe-stack|stack-probe-size|target-cpu)"="[^"]*"', '', text)
    text = re.sub(rf'(?m)^declare <16 x i8> {re.escape(X86_SHUFFLE)}.*\n', lambda _: shuffle_in_scalars(), text)
    text = text.replace(X86_SHUFFLE, '@shuffle_bytes(')
    text = re.sub(r'(?m)^(define (?!internal)[^@]*@lx_live_\w+)\(', r'\1_inner(', text)
    left = sorted(set(re.findall(r'llvm\.x86\.[\w.]+', text)))
    if left:
        raise SystemExit(f'retarget.py: these have no counterpart: {left}')
    return text


def number_at(module: bytes, at: int) -> tuple[int, int]:
    """A LEB128 number, and where it ends."""
    value = shift = 0
    while True:
        byte = module[at]
        at, value, shift = at + 1, value | (byte & 127) << shift, shift + 7
        if byte < 128:
            return value, at


def without_names_and_table(module: bytes) -> bytes:
    """Leaves out the custom sections, and the table, which nothing needs: no function is called by a pointer."""
    kept, at, kinds = [module[:8]], 8, set()
    while at < len(module):
        kind = module[at]
        size, begin = number_at(module, at + 1)
        kinds.add(kind)
        if kind not in (CUSTOM, TABLE):
            kept.append(module[at:begin + size])
        at = begin + size
    if ELEMENT in kinds:
        raise SystemExit('retarget.py: functions are called by pointers: the table is needed')
    return b''.join(kept)


def run(tool: pathlib.Path | str, *words: pathlib.Path | str) -> None:
    subprocess.run([tool, *words], check=True)


def linked(kit: pathlib.Path, module: pathlib.Path, at: pathlib.Path, out: pathlib.Path) -> None:
    """Compiles the module and the C files, and links them."""
    clang, source = kit / 'toolchain/bin/clang', at / 'module.ll'
    run(clang, *AS_TEXT, module, '-o', source)
    source.write_text(retargeted(source.read_text()))
    run(clang, *TARGET, *AS_THE_KIT, '-c', '-x', 'ir', source, '-o', at / 'module.o')
    for name in ('heap', 'exports'):
        run(clang, *TARGET, *OF_C, '-c', HERE / f'{name}.c', '-o', at / f'{name}.o')
    run(kit / 'toolchain/bin/llvm-ar', 'rcs', at / 'library.a', at / 'module.o', at / 'heap.o', at / 'exports.o')
    run(kit / 'bin/rattle-link', '--target', 'wasm64-unknown-unknown', '--toolchain', kit / 'toolchain',
        '--stack', str(STACK_BYTES), '-o', out, at / 'library.a')


def lowered(wide: pathlib.Path, out: pathlib.Path) -> None:
    """The module with addresses of 32 bits, optimized."""
    wide.write_bytes(without_names_and_table(wide.read_bytes()))
    run('wasm-opt', '--all-features', '--memory64-lowering', wide, '-o', out)
    run('wasm-opt', *FEATURES, '-O3', out, '-o', out)


def main() -> None:
    kit, module, out = (pathlib.Path(word).resolve() for word in sys.argv[1:])
    with tempfile.TemporaryDirectory() as folder:
        at = pathlib.Path(folder)
        linked(kit, module, at, at / 'wide.wasm')
        lowered(at / 'wide.wasm', out)


if __name__ == '__main__':
    main()
