# For the scripts of examples/: builds C examples with the library that is in crates/ballast_c/out.

out=target/examples

# c_program NAME: builds examples/c/NAME.c as $out/NAME
c_program() {
    mkdir -p "$out"
    gcc -std=c11 -O2 -Wall -Wextra -Werror -Iinclude "examples/c/$1.c" crates/ballast_c/out/libballast_c.a -Wl,-z,now -o "$out/$1"
}
