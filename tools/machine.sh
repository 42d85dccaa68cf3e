# For scripts to read in: what links and runs the proved library, which is x86-64 code, on this machine. On one of another kind a cross
# compiler links it, statically, and an emulator runs what was linked; on x86-64 there is none.
case $(uname -m) in
x86_64) compiler=gcc link='' emulator='' ;;
*) compiler=x86_64-linux-gnu-gcc link=-static emulator=qemu-x86_64 ;;
esac
