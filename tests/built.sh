# built.sh: read by the scripts, with `root` the repository's folder. Where rt leaves the archive and the program, and the
# commands that prove and build them, for every x86-64: rt's own default wants a newer processor.

archive=$root/crates/nolpigat/out/libnolpigat.a
cabinet=$root/crates/cabinet/out/cabinet

build_archive() (
    cd "$root/crates/nolpigat" && rt lib --cpu x86-64
)

# rt runs the program once, here without commands.
build_cabinet() (
    cd "$root/crates/cabinet" && rt run --cpu x86-64 </dev/null
)
