# For scripts to read in, from the top folder: $clang, a clang that has its fuzzer and its sanitizers; or the end, with what to install.
for clang in clang clang-19 clang-18 clang-17 clang-16 clang-15 clang-14; do
    if command -v "$clang" >/dev/null 2>&1; then break; fi
done
mkdir -p build/fuzz
if ! echo 'int LLVMFuzzerTestOneInput(const unsigned char *d, unsigned long n) { return d == 0 && n > 0; }' |
    "$clang" -fsanitize=fuzzer,address,undefined -x c - -o build/fuzz/tried 2>/dev/null; then
    echo 'fuzz: clang with its sanitizers is missing; as root: apt-get install --no-install-recommends clang libclang-rt-14-dev' >&2
    exit 1
fi
rm -f build/fuzz/tried
