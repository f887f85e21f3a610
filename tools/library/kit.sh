# kit.sh - sourced: the kit's folder and its own tools. Sets kit (the kit) and bin (clang, ld.lld, llvm-ar).
# shellcheck shell=bash disable=SC2034

command -v rt >/dev/null || {
    echo "library: the Rattle kit's 'rt' is not on the PATH: install the kit, or add its bin folder to PATH" >&2
    exit 2
}
kit=$(dirname "$(rt doc)")
bin=$kit/toolchain/bin
for tool in clang ld.lld llvm-ar; do
    [ -x "$bin/$tool" ] || {
        echo "library: the kit has no '$tool' in $bin" >&2
        exit 2
    }
done
