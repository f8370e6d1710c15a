# Sourced by tools/archive and oracle/changed: keeps the LLVM module that the toolchain's clang is given, and turns it into text for any machine.
machine=$(uname -m)
kit=$(dirname "$(readlink -f "$(rt doc)")")
clang=$kit/toolchain/bin/clang
ar=$kit/toolchain/bin/llvm-ar
[ -x "$clang" ] || { echo "$(basename "$0"): no clang in the toolchain" >&2; exit 2; }

link_but() { # FROM TO BUT
    mkdir -p "$2"
    for f in "$1"/*; do
        case " $3 " in *" $(basename "$f") "*) ;; *) ln -s "$f" "$2/" ;; esac
    done
}

keep_module() { # FOLDER KEPT: in FOLDER a toolchain like the one installed, whose clang copies to KEPT the module of an archive (-O3) or of a program that is tried
    link_but "$kit" "$1" "bin toolchain"
    link_but "$kit/bin" "$1/bin" "rt rtlib.py"
    cp "$kit/bin/rt" "$kit/bin/rtlib.py" "$1/bin/"
    link_but "$kit/toolchain" "$1/toolchain" bin
    link_but "$kit/toolchain/bin" "$1/toolchain/bin" clang
    cat >"$1/toolchain/bin/clang" <<END
#!/bin/sh
case " \$* " in *" -O3 "* | *" -fsanitize=address "*) for a in "\$@"; do case \$a in *.bc) cp "\$a" "$2" ;; esac; done ;; esac
exec "$clang" "\$@"
END
    chmod +x "$1/toolchain/bin/clang"
}

make_archive() { # FOLDER SAID: the archive of `board_c`, for every x86-64 processor, by the toolchain in FOLDER; what is said goes to SAID
    (cd "$top/crates/board_c" && "$1/bin/rt" lib --cpu x86-64) >"$2" 2>&1 || { cat "$2" >&2; return 1; }
}

module_text() { # KEPT, as text, to stdout
    "$clang" -S -emit-llvm -Xclang -disable-llvm-passes --target=x86_64-unknown-linux-gnu -x ir "$1" -o - |
        sed -e '/^target datalayout/d' -e '/^target triple/d' -e 's/ "target-cpu"="x86-64[^"]*"//'
}

served() { # TRIPLE: whether clang knows it, with pointers and sizes of 8 bytes, lowest byte first
    said=$(echo __SIZEOF_POINTER__ __SIZEOF_SIZE_T__ __BYTE_ORDER__ | "$clang" --target="$1" -E -P -x c - 2>/dev/null) && [ "$said" = "8 8 1234" ]
}

compile_for() { # TRIPLE TEXT OBJECT
    "$clang" --target="$1" -Wno-override-module -O3 -fPIC -ffunction-sections -fdata-sections -c -x ir "$2" -o "$3"
}
